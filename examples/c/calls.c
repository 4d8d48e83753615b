/*
 * Asks each call of the static library: with ample room, with just enough and with too little, with faults, and with each request for
 * memory refused in turn.
 *
 *     calls FOLDER
 *
 * FOLDER has the examples. What is found to be wrong is printed; the last line is `N passed, M failed`, and the status is 0 where
 * none failed. The functions by which a library takes memory are this program's own, and count its requests.
 */
#define _POSIX_C_SOURCE 200809L
#include <inttypes.h>
#include <stdio.h>
#include <stdlib.h>
#include <string.h>

#include "acpiroute.h"
#include "acpiroute_memory.h"
#include "bytes.h"
#include "chipset.h"

/* Not in a library without SSE registers. */
extern __typeof__(acpiroute_route) acpiroute_route __attribute__((weak));
extern __typeof__(acpiroute_check) acpiroute_check __attribute__((weak));
extern __typeof__(acpiroute_names) acpiroute_names __attribute__((weak));
extern __typeof__(acpiroute_eval) acpiroute_eval __attribute__((weak));
extern __typeof__(acpiroute_why) acpiroute_why __attribute__((weak));

/* Memory: how many blocks are out, how many requests there were, and which is refused, counted from 0. */

static size_t blocks, requests, refused = SIZE_MAX;
static uint8_t nothing;

static struct acpiroute_block given(void *at) {
    return at == NULL ? (struct acpiroute_block){0, &nothing} : (struct acpiroute_block){1, at};
}

struct acpiroute_block rattle_alloc(size_t size, size_t alignment) {
    if (requests++ == refused)
        return given(NULL);
    blocks++;
    return given(malloc(size > 0 ? size : alignment));
}

struct acpiroute_block rattle_realloc(void *block, size_t kept, size_t size, size_t alignment) {
    (void)kept;
    return given(requests++ == refused ? NULL : realloc(block, size > 0 ? size : alignment));
}

void rattle_dealloc(void *block) {
    blocks--;
    free(block);
}

/* What is asked, and where it is answered. */

typedef __typeof__(acpiroute_route) command;

struct question {
    const char *name;
    /* A command with its options; NULL for a call over a record. */
    command *command;
    const char *options;
    /* An object of a call over a record; NULL where the machine is configured. */
    const char *object;
    struct acpiroute_settings settings;
    uint32_t avoid[1];
    size_t avoid_length;
    uint64_t arguments[1];
    size_t arguments_length;
    struct bytes input;
    /* The parts of memory of a call over tables; NULL where it is over the text. */
    const struct acpiroute_part *parts;
    size_t parts_length;
    const char *osi;
};

enum { ROOM = 1 << 16, MOST_PINS = 64, UNTOUCHED = 0xEE, RSDP = 0xE0000 };
static struct places {
    uint8_t text[ROOM], line[ROOM];
    struct acpiroute_pin pins[MOST_PINS];
    struct acpiroute_reply reply;
    struct acpiroute_pins_reply sizes;
    struct acpiroute_wanted wanted;
} now, untouched;
static struct acpiroute_access record[64];
static size_t record_length;

static uint32_t ask(const struct question *it, size_t text_room, size_t line_room) {
    const uint8_t *object = (const uint8_t *)it->object, *osi = (const uint8_t *)it->osi;
    now = untouched;
    requests = 0;
    if (it->command != NULL)
        return it->command((const uint8_t *)it->options, strlen(it->options), it->input.at, it->input.length, now.text, text_room,
                           now.line, line_room, &now.reply);
    if (object != NULL && it->parts != NULL)
        return acpiroute_evaluate_tables(&it->settings, object, strlen(it->object), it->arguments, it->arguments_length, RSDP, it->parts,
                                         it->parts_length, osi, strlen(it->osi), record, record_length, now.text, text_room, now.line,
                                         line_room, &now.reply, &now.wanted);
    if (it->parts != NULL)
        return acpiroute_configure_tables(&it->settings, it->avoid, it->avoid_length, RSDP, it->parts, it->parts_length, osi,
                                          strlen(it->osi), record, record_length, now.text, text_room, now.line, line_room, &now.reply,
                                          &now.wanted);
    if (object != NULL)
        return acpiroute_evaluate(&it->settings, object, strlen(it->object), it->arguments, it->arguments_length, it->input.at,
                                  it->input.length, record, record_length, now.text, text_room, now.line, line_room, &now.reply,
                                  &now.wanted);
    return acpiroute_configure(&it->settings, it->avoid, it->avoid_length, it->input.at, it->input.length, record, record_length, now.text,
                               text_room, now.line, line_room, &now.reply, &now.wanted);
}

/* The same for pins. */
static uint32_t ask_pins(const struct question *it, size_t pins_room, size_t line_room) {
    now = untouched;
    requests = 0;
    if (it->parts != NULL)
        return acpiroute_configure_tables_pins(&it->settings, it->avoid, it->avoid_length, RSDP, it->parts, it->parts_length,
                                               (const uint8_t *)it->osi, strlen(it->osi), record, record_length, now.pins, pins_room,
                                               now.line, line_room, &now.sizes, &now.wanted);
    return acpiroute_configure_pins(&it->settings, it->avoid, it->avoid_length, it->input.at, it->input.length, record, record_length,
                                    now.pins, pins_room, now.line, line_room, &now.sizes, &now.wanted);
}

/* What is judged. */

static unsigned passed, failed;

static void judge(const struct question *it, const char *what, int is_right) {
    passed += is_right != 0;
    failed += is_right == 0;
    if (!is_right)
        printf("%s: %s is wrong\n", it->name, what);
}

static int is_untouched(const uint8_t *at, size_t length) {
    while (length > 0 && at[length - 1] == UNTOUCHED)
        length--;
    return length == 0;
}

static int is_all_untouched(void) {
    return memcmp(&now, &untouched, sizeof now) == 0;
}

static int is_put(const uint8_t *at, size_t length, const char *wanted) {
    return length == strlen(wanted) && memcmp(at, wanted, length) == 0 && is_untouched(at + length, ROOM - length);
}

static int is_replied(uint32_t came, uint8_t status, const char *text, const char *line) {
    return came == ACPIROUTE_REPLIED && now.reply.status == status && is_put(now.text, now.reply.text_length, text) &&
           is_put(now.line, now.reply.line_length, line) && is_untouched((uint8_t *)&now.wanted, sizeof now.wanted);
}

/* A call without memory says so, and has changed nothing; or its reply says so. */
static int is_out_of_memory(const struct question *it, uint32_t came) {
    return (came == ACPIROUTE_NO_MEMORY && is_all_untouched()) || is_replied(came, 1, "", "refused 99\n") ||
           (it->command != NULL && is_replied(came, 2, "", "error: out of memory\n"));
}

/* What a call says, each buffer one byte too small, and each request for memory refused. */
static void judge_reply(const struct question *it, uint8_t status, const char *text, const char *line) {
    size_t sizes[2] = {strlen(text), strlen(line)};
    judge(it, "the reply", is_replied(ask(it, ROOM, ROOM), status, text, line));
    judge(it, "a call with just enough room", is_replied(ask(it, sizes[0], sizes[1]), status, text, line));
    for (int i = 0; i < 2; i++)
        if (sizes[i] > 0) {
            uint32_t came = ask(it, sizes[0] - (i == 0), sizes[1] - (i == 1));
            judge(it, "a call with a small buffer", came == ACPIROUTE_TOO_SMALL && now.reply.text_length == sizes[0] &&
                  now.reply.line_length == sizes[1] && now.reply.status == status && is_untouched(now.text, ROOM) &&
                  is_untouched(now.line, ROOM));
        }
    for (refused = 0;; refused++) {
        uint32_t came = ask(it, ROOM, ROOM);
        if (requests <= refused)
            break;
        if (!is_replied(came, status, text, line) && !is_out_of_memory(it, came))
            judge(it, "a call without memory", 0);
    }
    refused = SIZE_MAX;
    judge(it, "the memory that is left", blocks == 0);
}

static void judge_told(const struct question *it, uint32_t code) {
    judge(it, "the result", ask(it, ROOM, ROOM) == code && is_all_untouched());
}

/* Whether the next access is wanted, and nothing else has changed. */
static int is_next_wanted(uint32_t came) {
    return came == ACPIROUTE_WANTED && now.wanted.entry == record_length && now.wanted.access.answer == ACPIROUTE_ANSWERED &&
           is_untouched((uint8_t *)&now.reply, sizeof now.reply) && is_untouched(now.text, ROOM) && is_untouched(now.line, ROOM);
}

/* A call over a record, until no access is wanted: each is made on the chipset. Some are wanted, once with each request refused. */
static void grow(const struct question *it, struct chipset *chipset, int has_accesses) {
    uint32_t came;
    record_length = 0;
    while ((came = ask(it, ROOM, ROOM)) == ACPIROUTE_WANTED && record_length < sizeof record / sizeof *record) {
        struct acpiroute_access wanted = now.wanted.access;
        judge(it, "a wanted access", is_next_wanted(came));
        for (refused = 0; record_length == 0; refused++) {
            came = ask(it, ROOM, ROOM);
            if (requests <= refused)
                break;
            if (!is_next_wanted(came) && !is_out_of_memory(it, came))
                judge(it, "a wanted access without memory", 0);
        }
        refused = SIZE_MAX;
        chipset_access(chipset, &wanted);
        record[record_length++] = wanted;
    }
    judge(it, "the number of accesses", (record_length > 0) == has_accesses && came != ACPIROUTE_WANTED);
}

static int is_same_access(const struct acpiroute_access *one, const struct acpiroute_access *other) {
    return one->address == other->address && one->value == other->value && one->segment == other->segment && one->bus == other->bus &&
           one->device == other->device && one->function == other->function && one->space == other->space &&
           one->width == other->width && one->kind == other->kind && one->answer == other->answer;
}

static void judge_malformed(const struct question *it, size_t i, struct acpiroute_access changed) {
    struct acpiroute_access whole = record[i];
    record[i] = changed;
    judge_told(it, ACPIROUTE_MALFORMED);
    record[i] = whole;
}

/* An entry that is changed: the call stops there, and wants what the entry was, whatever follows. Numbers that mean nothing. */
static void judge_spoiled(const struct question *it) {
    for (size_t i = 0; i < record_length; i++) {
        struct acpiroute_access whole = record[i], other = whole;
        record[i].address ^= 0x80;
        int is_there = ask(it, ROOM, ROOM) == ACPIROUTE_WANTED && now.wanted.entry == i;
        other.answer = ACPIROUTE_ANSWERED;
        other.value = whole.kind == ACPIROUTE_READ ? 0 : whole.value;
        judge(it, "a changed entry", is_there && is_same_access(&now.wanted.access, &other));
        record[i] = other = whole;
        other.kind = 2;
        judge_malformed(it, i, other);
        other = whole, other.space = 3;
        judge_malformed(it, i, other);
        other = whole, other.width = 7;
        judge_malformed(it, i, other);
        other = whole, other.answer = 3;
        judge_malformed(it, i, other);
        other = whole, other.space = ACPIROUTE_IO, other.address = 0x10000;
        judge_malformed(it, i, other);
        other = whole, other.kind = ACPIROUTE_READ, other.width = 8, other.value = 0x100;
        judge_malformed(it, i, other);
    }
    struct question other = *it;
    other.settings.steps = 0;
    judge_told(&other, ACPIROUTE_MALFORMED);
    other.settings.steps = 1000000001;
    judge_told(&other, ACPIROUTE_MALFORMED);
    other = *it, other.settings.mode = 4;
    judge_told(&other, ACPIROUTE_MALFORMED);
    other = *it, other.settings.dry = 2;
    judge_told(&other, ACPIROUTE_MALFORMED);
    other = *it, other.settings.kernel = 2;
    judge_told(&other, ACPIROUTE_MALFORMED);
    other = *it, other.settings.calls = 33;
    judge_told(&other, ACPIROUTE_MALFORMED);
    other = *it, other.settings.levels = 65;
    judge_told(&other, ACPIROUTE_MALFORMED);
}

/* Pins. */

static int is_same_pin(const struct acpiroute_pin *one, const struct acpiroute_pin *other) {
    return one->interrupt == other->interrupt && one->segment == other->segment && one->device == other->device &&
           one->bus == other->bus && one->pin == other->pin && one->level == other->level && one->low == other->low &&
           one->has_bus == other->has_bus && one->is_set == other->is_set;
}

/* What a call for pins should say: the pins and the System Control Interrupt, or a line. */
struct routing {
    uint8_t status;
    const struct acpiroute_pin *pins;
    size_t count;
    struct acpiroute_sci sci;
    const char *line;
};

static struct routing refused_by(const char *line) {
    return (struct routing){1, NULL, 0, {0, 0, 0, 0}, line};
}

static int is_same_sci(struct acpiroute_sci one, struct acpiroute_sci other) {
    return one.interrupt == other.interrupt && one.level == other.level && one.low == other.low && one.is_known == other.is_known;
}

static int are_sizes(const struct routing *wanted) {
    return now.sizes.pins_length == wanted->count && now.sizes.line_length == strlen(wanted->line) &&
           now.sizes.status == wanted->status && is_same_sci(now.sizes.sci, wanted->sci) && is_untouched(now.text, ROOM) &&
           is_untouched((uint8_t *)&now.wanted, sizeof now.wanted);
}

static int are_pins(uint32_t came, const struct routing *wanted) {
    size_t count = wanted->count;
    int is_right = came == ACPIROUTE_REPLIED && are_sizes(wanted) && is_put(now.line, strlen(wanted->line), wanted->line) &&
                   is_untouched((uint8_t *)(now.pins + count), (MOST_PINS - count) * sizeof *now.pins);
    for (size_t i = 0; is_right && i < count; i++)
        is_right = is_same_pin(&now.pins[i], &wanted->pins[i]);
    return is_right;
}

/* What a call for pins says, the array and the buffer too small, and each request for memory refused. */
static void judge_pins(const struct question *it, struct routing wanted) {
    size_t count = wanted.count, length = strlen(wanted.line);
    struct routing without_memory = refused_by("refused 99\n");
    judge(it, "the pins", are_pins(ask_pins(it, MOST_PINS, ROOM), &wanted));
    judge(it, "pins with just enough room", are_pins(ask_pins(it, count, length), &wanted));
    if (count > 0 || length > 0) {
        uint32_t came = ask_pins(it, count - (count > 0), length - (length > 0));
        judge(it, "pins without room", came == ACPIROUTE_TOO_SMALL && are_sizes(&wanted) &&
              is_untouched((uint8_t *)now.pins, sizeof now.pins) && is_untouched(now.line, ROOM));
    }
    for (refused = 0;; refused++) {
        uint32_t came = ask_pins(it, MOST_PINS, ROOM);
        if (requests <= refused)
            break;
        if (!are_pins(came, &wanted) && !are_pins(came, &without_memory) &&
            !(came == ACPIROUTE_NO_MEMORY && is_all_untouched()))
            judge(it, "pins without memory", 0);
    }
    refused = SIZE_MAX;
    judge(it, "the memory that is left", blocks == 0);
}

/* A call for pins over each beginning of a record wants the access that follows. */
static void judge_pins_wanted(const struct question *it) {
    size_t whole = record_length;
    for (record_length = 0; record_length < whole; record_length++) {
        struct acpiroute_access next = record[record_length];
        next.answer = ACPIROUTE_ANSWERED;
        next.value = next.kind == ACPIROUTE_READ ? 0 : next.value;
        uint32_t came = ask_pins(it, MOST_PINS, ROOM);
        judge(it, "a wanted access", came == ACPIROUTE_WANTED && now.wanted.entry == record_length &&
              is_same_access(&now.wanted.access, &next) && is_untouched((uint8_t *)&now.sizes, sizeof now.sizes) &&
              is_untouched((uint8_t *)now.pins, sizeof now.pins) && is_untouched(now.line, ROOM));
    }
    struct question other = *it;
    other.settings.kernel = 2;
    judge(it, "malformed settings", ask_pins(&other, MOST_PINS, ROOM) == ACPIROUTE_MALFORMED && is_all_untouched());
}

static const char *folder;

static struct bytes example(const char *name) {
    char path[4096];
    snprintf(path, sizeof path, "%s/%s", folder, name);
    return read_file(path);
}

static const char *text_of(const char *name) {
    struct bytes it = example(name);
    struct bytes text = room(it.length + 1);
    memcpy(text.at, it.at, it.length);
    text.at[it.length] = 0;
    return (const char *)text.at;
}

static struct question over(const char *name, command *command, const char *options, struct bytes input) {
    return (struct question){name, command, options, NULL, {1000000, ACPIROUTE_APIC, 0, 0, 0, 0}, {0}, 0, {0}, 0, input, NULL, 0, ""};
}

/* A text with each line left out that begins so. */
static const char *without(const char *text, const char *begin) {
    char *made = (char *)room(strlen(text) + 1).at, *at = made;
    for (const char *line = text, *next; *line; line = next) {
        next = strchr(line, '\n') + 1;
        if (strncmp(line, begin, strlen(begin)) != 0) {
            memcpy(at, line, (size_t)(next - line));
            at += next - line;
        }
    }
    *at = 0;
    return made;
}

/* A text of which one part is another. */
static const char *with(const char *text, const char *old, const char *new) {
    const char *at = strstr(text, old);
    if (at == NULL)
        stop("an example is another than before");
    size_t length = strlen(text) + strlen(new) - strlen(old) + 1;
    char *made = (char *)room(length).at;
    snprintf(made, length, "%.*s%s%s", (int)(at - text), text, new, at + strlen(old));
    return made;
}

static void judge_commands(void) {
    struct bytes machine = example("two-links.txt"), report = example("two-links.report"), bare = {(uint8_t *)"rsdp 0\n", 7};
    const char *false_claim = with(text_of("two-links.report"), "busiest 2", "busiest 1");
    const struct {
        const char *name;
        command *command;
        const char *options;
        struct bytes input;
        uint8_t status;
        const char *text, *line;
    } rows[] = {
        {"route", acpiroute_route, "", machine, 0, text_of("two-links.report"), ""},
        {"route --avoid 10", acpiroute_route, "--avoid 10", machine, 0, text_of("two-links.avoid.report"), ""},
        {"route --avoid 5", acpiroute_route, "--avoid 5", machine, 1, "", "refused 123 \\_SB_.LNKB\n"},
        {"route --avoid none", acpiroute_route, "--avoid none", machine, 2, "", "bad --avoid\n"},
        {"route over another text", acpiroute_route, "", report, 1, "", "refused 140 line 1\n"},
        {"check", acpiroute_check, "", report, 0, "yes\n", ""},
        {"check of a false claim", acpiroute_check, "", {(uint8_t *)false_claim, strlen(false_claim)}, 4, "no 4\n", ""},
        {"check over another text", acpiroute_check, "", machine, 1, "", "refused 130 line 1\n"},
        {"names over no tables", acpiroute_names, "", bare, 1, "", "refused 13\n"},
        {"eval _HID", acpiroute_eval, "\\_SB_.LNKA._HID", machine, 0, "integer 252497985\n", ""},
        {"eval of no object", acpiroute_eval, "\\NONE", machine, 1, "", "refused 61\n"},
        {"why eval", acpiroute_why, "eval \\_SB_.LNKA._HID", machine, 0, "not refused\n", ""},
        {"why over another text", acpiroute_why, "", report, 1, "", "refused 140 line 1\n"},
    };
    for (size_t i = 0; i < sizeof rows / sizeof *rows; i++) {
        struct question it = over(rows[i].name, rows[i].command, rows[i].options, rows[i].input);
        judge_reply(&it, rows[i].status, rows[i].text, rows[i].line);
    }
    struct question it = over("route \\xFF", acpiroute_route, "\xFF", machine);
    judge_told(&it, ACPIROUTE_NOT_UTF8);
    it = over("check \\xFF", acpiroute_check, "\xFF", report);
    judge_told(&it, ACPIROUTE_NOT_UTF8);
    it = over("names", acpiroute_names, "", machine);
    judge(&it, "the reply", ask(&it, ROOM, ROOM) == ACPIROUTE_REPLIED && now.reply.status == 0 &&
          strstr((char *)now.text, "\\_SB_.LNKB._PRS ") != NULL);
}

/* The lines `mem` of a machine text as parts of memory. */
static size_t parts_of(struct bytes text, struct acpiroute_part *parts, size_t most) {
    size_t count = 0;
    char *rest, *whole = (char *)room(text.length + 1).at;
    memcpy(whole, text.at, text.length);
    whole[text.length] = 0;
    for (char *line = strtok_r(whole, "\n", &rest); line != NULL && count < most; line = strtok_r(NULL, "\n", &rest)) {
        if (strncmp(line, "mem ", 4) != 0)
            continue;
        char *at;
        uint64_t address = strtoull(line + 4, &at, 16);
        struct bytes bytes = room(strlen(at) / 2);
        size_t length = 0;
        unsigned byte;
        for (; *at; at += *at == ' ' ? 1 : 2)
            if (*at != ' ' && sscanf(at, "%2x", &byte) == 1)
                bytes.at[length++] = (uint8_t)byte;
        parts[count++] = (struct acpiroute_part){address, bytes.at, length};
    }
    return count;
}

/* The report of the four links with the lines for a kernel: each link offers interrupts that are active high, the SCI is level and low, as
 * no override says otherwise, and PCI0 has neither _SEG nor _BBN. */
static const char *for_kernels(const char *report) {
    const char *lines = "trigger link \\_SB_.LNKA level high\ntrigger link \\_SB_.LNKB level high\ntrigger link \\_SB_.LNKC level high\n"
                        "trigger link \\_SB_.LNKD level high\ntrigger sci 9 level low\nbus \\_SB_.PCI0 0 0\n";
    const char *text = with(with(report, "acpiroute 2\n", "acpiroute 3\n"), "avoid -\n", "avoid -\nfirst\n");
    char *made = (char *)room(strlen(text) + strlen(lines) + 1).at;
    strcpy(made, text);
    return strcat(made, lines);
}

/* The pins of the lines `pin` of that report, of which those of one link aren't set; all are, where that link's letter is blank. */
static size_t pins_of(const char *report, char unset, struct acpiroute_pin *pins) {
    size_t count = 0;
    unsigned device, interrupt;
    char pin, link;
    for (const char *line = report; *line; line = strchr(line, '\n') + 1)
        if (sscanf(line, "pin \\_SB_.PCI0 %u %c %u \\_SB_.LNK%c", &device, &pin, &interrupt, &link) == 4)
            pins[count++] = (struct acpiroute_pin){interrupt, 0, (uint16_t)device, 0, (uint8_t)(pin - 'A'), 1, 0, 1, link != unset};
    return count;
}

/* The first write is refused by its device: a link refuses its setting, and the run goes on. */
static void judge_refused_setting(const struct question *it, struct chipset *chipset, const char *report) {
    struct acpiroute_pin pins[MOST_PINS];
    struct routing wanted = {3, pins, pins_of(report, 'A', pins), {9, 1, 1, 1}, ""};
    size_t first = 0;
    while (record[first].kind != ACPIROUTE_WRITE)
        first++;
    chipset_reset(chipset);
    record[first].answer = ACPIROUTE_DEVICE_FAILED;
    record_length = first + 1;
    while (ask_pins(it, MOST_PINS, ROOM) == ACPIROUTE_WANTED && record_length < sizeof record / sizeof *record) {
        record[record_length] = now.wanted.access;
        chipset_access(chipset, &record[record_length++]);
    }
    judge_pins(it, wanted);
}

/* The lines for a kernel, and the pins. */
static void judge_kernel_calls(struct question it, const char *report) {
    struct acpiroute_pin pins[MOST_PINS];
    struct routing wanted = {0, pins, pins_of(report, ' ', pins), {9, 1, 1, 1}, ""};
    struct chipset chipset;
    judge(&it, "the lines of pins", wanted.count == 16);
    it.settings.kernel = 1;
    chipset_reset(&chipset);
    grow(&it, &chipset, 1);
    judge(&it, "what the chipset is set to", memcmp(chipset.routing, (uint8_t[]){5, 5, 10, 10}, 4) == 0);
    judge_reply(&it, 0, for_kernels(report), "");
    judge_pins(&it, wanted);
    it.settings.kernel = 0;
    judge_pins(&it, wanted);
    judge_pins_wanted(&it);
    judge_refused_setting(&it, &chipset, report);
    it.settings.dry = 1, it.settings.kernel = 1;
    chipset_reset(&chipset);
    grow(&it, &chipset, 1);
    for (size_t i = 0; i < wanted.count; i++)
        pins[i].is_set = 0;
    judge_pins(&it, wanted);
    record[0].answer = ACPIROUTE_DEVICE_FAILED, record[0].value = 0;
    judge_pins(&it, refused_by("refused 2\n"));
    record_length = 0;
}

/* Pins that are wired, edges, and buses that are not known: as the rows of `route --kernel` have them for this machine. */
static void judge_wired_pins(void) {
    const struct acpiroute_pin pins[] = {
        {19, 0, 1, 0, 0, 1, 1, 0, 1}, {21, 0, 1, 0, 0, 1, 1, 0, 1}, {17, 2, 1, 128, 0, 1, 1, 1, 1}, {18, 0, 1, 0, 0, 1, 1, 0, 1},
        {16, 0, 1, 0, 0, 0, 0, 1, 1}, {5, 0, 1, 0, 1, 1, 1, 1, 0},  {22, 0, 1, 0, 0, 1, 1, 0, 1},
    };
    struct question it = over("pins", NULL, "", example("../crates/test_program/data/kernel.txt"));
    it.settings.dry = 1;
    record_length = 0;
    judge_pins(&it, (struct routing){0, pins, sizeof pins / sizeof *pins, {20, 1, 0, 1}, ""});
    it.input = (struct bytes){(uint8_t *)"rsdp 0\n", 7};
    judge_pins(&it, refused_by("refused 13\n"));
}

/* The calls over a record, of the tables of a text or of parts: on a chipset whose registers are others than those of the text. */
static void judge_record_calls(struct question it) {
    const char *report = text_of("i440fx.report");
    struct chipset chipset;
    chipset_reset(&chipset);
    grow(&it, &chipset, 1);
    judge(&it, "what the chipset is set to", memcmp(chipset.routing, (uint8_t[]){5, 5, 10, 10}, 4) == 0);
    judge_spoiled(&it);
    judge_reply(&it, 0, report, "");
    judge_kernel_calls(it, report);
    it.settings.dry = 1;
    chipset_reset(&chipset);
    grow(&it, &chipset, 1);
    judge(&it, "what the chipset is set to", memcmp(chipset.routing, (uint8_t[]){0x80, 0x80, 0x80, 0x80}, 4) == 0);
    judge_reply(&it, 0, without(without(report, "set "), "after "), "");
    it.settings.dry = 0;
    it.settings.mode = ACPIROUTE_PIC;
    chipset_reset(&chipset);
    grow(&it, &chipset, 1);
    judge_reply(&it, 0, with(report, "mode apic", "mode pic"), "");
    it.settings.mode = ACPIROUTE_PIC + ACPIROUTE_WIDE;
    chipset_reset(&chipset);
    grow(&it, &chipset, 1);
    judge_reply(&it, 0, with(report, "mode apic", "mode pic"), "");
    it.avoid[0] = 5, it.avoid_length = 1;
    chipset_reset(&chipset);
    grow(&it, &chipset, 1);
    judge(&it, "what the chipset is set to", chipset.routing[0] != 5 && chipset.routing[1] != 5);
    it.avoid_length = 0;
    it.object = "\\_SB_.LNKA._STA";
    it.settings.kernel = 1;
    chipset_reset(&chipset);
    grow(&it, &chipset, 1);
    judge_spoiled(&it);
    judge_reply(&it, 0, "integer 9\n", "");
    chipset.routing[0] = 5;
    grow(&it, &chipset, 1);
    judge_reply(&it, 0, "integer 11\n", "");
    record[0].answer = ACPIROUTE_NO_REGISTER, record[0].value = 0;
    judge_reply(&it, 1, "", "refused 1\n");
    record[0].answer = ACPIROUTE_DEVICE_FAILED;
    judge_reply(&it, 1, "", "refused 2\n");
    record_length = 0;
    it.object = "\\_SB_.LNKA.NONE";
    judge_reply(&it, 1, "", "refused 61\n");
    it.object = "\\_SB_.IQST", it.arguments[0] = 0x80, it.arguments_length = 1;
    judge_reply(&it, 0, "integer 9\n", "");
    it.arguments[0] = 0x7F;
    judge_reply(&it, 0, "integer 11\n", "");
    it.arguments_length = 0;
    judge_reply(&it, 1, "", "refused 72\n");
    it.object = "\\_OSI";
    judge_reply(&it, 1, "", "refused 72\n");
}

/* Parts of memory: one too few, one beyond the end of memory, and a later one over an earlier one. */
static void judge_parts(struct question it) {
    static struct acpiroute_part parts[256], turned[256];
    size_t count = parts_of(it.input, parts, 200);
    for (size_t i = 0; i < count; i++)
        turned[i] = parts[count - 1 - i];
    it.parts = turned;
    it.parts_length = count;
    judge_record_calls(it);
    record_length = 0;
    it.parts = parts;
    it.parts_length = count - 1;
    judge_reply(&it, 1, "", "refused 13\n");
    it.parts_length = 0;
    judge_reply(&it, 1, "", "refused 13\n");
    parts[count] = (struct acpiroute_part){UINT64_MAX, parts[0].bytes, 2};
    it.parts_length = count + 1;
    judge_reply(&it, 1, "", "refused 13\n");
    parts[count].length = 1;
    judge(&it, "a call with a byte at the end of memory", ask(&it, ROOM, ROOM) == ACPIROUTE_WANTED && now.wanted.entry == 0);
    parts[count] = (struct acpiroute_part){RSDP, (const uint8_t *)"X", 1};
    judge_reply(&it, 1, "", "refused 10\n");
    it.parts_length = count;
    it.osi = "1\n2\n3\n4\n5\n6\n7\n8\n9\n10\n11\n12\n13\n14\n15\n16\n17\n18\n19\n20\n21\n22\n23\n24\n25\n26\n27\n28\n29\n30\n31\n32\n33\n"
             "34\n35\n36\n37\n38\n39\n40\n41\n42\n43\n44\n45\n46\n47\n48\n49\n50\n51\n52\n53\n54\n55\n56\n57\n58\n59\n60\n61\n62\n63\n64\n65";
    judge_reply(&it, 1, "", "refused 81\n");
}

int main(int count, char **words) {
    if (count != 2)
        stop("a folder is wanted");
    folder = words[1];
    memset(&untouched, UNTOUCHED, sizeof untouched);
    if (acpiroute_route)
        judge_commands();
    judge_record_calls(over("over a record", NULL, NULL, example("i440fx.txt")));
    judge_parts(over("over tables in memory", NULL, NULL, example("i440fx.txt")));
    struct question refused_machine = over("a machine that is refused", NULL, NULL, example("refused.txt"));
    struct chipset chipset;
    chipset_reset(&chipset);
    grow(&refused_machine, &chipset, 0);
    judge_reply(&refused_machine, 1, "", "refused 101\n");
    judge_wired_pins();
    printf("%u passed, %u failed\n", passed, failed);
    return failed > 0;
}
