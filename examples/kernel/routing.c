/* The run of the library over the machine's own registers, and where it routes each pin. */
#include "kernel.h"

static const struct tables *machine;

/* The run: calls over a record of accesses, which grows until no access is wanted. */

enum { MOST_ACCESSES = 4096, MOST_PINS = 4096 };
/* What `_OSI` says yes to: many tables set their links in another way for an operating system that they don't know. */
static const uint8_t osi[] = "Windows 2012\nWindows 2015";
static struct acpiroute_settings settings;
static struct acpiroute_access record[MOST_ACCESSES];
static size_t record_length;
static uint8_t report[1 << 18], fault[4096];
static struct acpiroute_pin pins[MOST_PINS];
static struct acpiroute_pins_reply routed;
static struct { uint64_t calls, time, longest; } measured;

/* One call over the record, whose reply has the pins as plain numbers. */
static uint32_t call(struct acpiroute_wanted *wanted) {
    uint32_t no_avoid = 0;
    uint64_t start = microseconds(), blocks = memory_use.blocks;
    uint32_t came = acpiroute_configure_tables_pins(&settings, &no_avoid, 0, machine->rsdp, machine->parts, machine->count, osi,
                                                    sizeof osi - 1, record, record_length, pins, MOST_PINS, fault, sizeof fault,
                                                    &routed, wanted);
    uint64_t took = microseconds() - start;
    measured.calls++;
    measured.time += took;
    measured.longest = took > measured.longest ? took : measured.longest;
    if (memory_use.blocks != blocks)
        stop("the library kept memory");
    return came;
}

static void append(struct acpiroute_access it) {
    static const char *const spaces[] = {"memory", "port", "pci"};
    if (record_length == MOST_ACCESSES)
        stop("the run comes to no end");
    record[record_length++] = it;
    say("access %s %s %x:%x.%x %x of %u bits: %x%s", spaces[it.space], it.kind == ACPIROUTE_WRITE ? "write" : "read", (uint64_t)it.bus,
        (uint64_t)it.device, (uint64_t)it.function, it.address, (uint64_t)it.width, it.value, it.answer ? ", NOT MADE" : "");
}

/* Calls until no access is wanted, and makes each. A spoiled record is one whose fourth entry is changed after the sixth access. */
static void run(enum spoil spoil) {
    struct acpiroute_wanted wanted;
    uint32_t came;
    while ((came = call(&wanted)) == ACPIROUTE_WANTED) {
        if (wanted.entry < record_length)
            stop("the record is not of this run");
        make_access(&wanted.access);
        append(wanted.access);
        if (spoil == SPOILED && record_length == 6)
            record[3].address = 0xF0;
    }
    if (came != ACPIROUTE_REPLIED)
        stop(came == ACPIROUTE_TOO_SMALL ? "a buffer is too small" : "no reply");
    if (routed.status != 0) {
        say_bytes(fault, routed.line_length);
        stop("the machine is not routed");
    }
    for (size_t i = 0; i < routed.pins_length; i++) {
        /* In the core profile the bus behind a bridge with a routing table of its own is not told; that of the bridge is another. */
        if (!pins[i].has_bus)
            stop("a routing table whose bus is not known");
        /* Such a link reads back something else, or can't be set: another interrupt may come. */
        if (!pins[i].is_set)
            say("bus %u device %u pin %u: its link is not set", (uint64_t)pins[i].bus, (uint64_t)pins[i].device, (uint64_t)pins[i].pin);
    }
}

/* The routes of the pins. */

int has_table(unsigned bus) {
    for (size_t i = 0; i < routed.pins_length; i++)
        if (pins[i].segment == 0 && pins[i].bus == bus)
            return 1;
    return 0;
}

struct route route_of(unsigned bus, unsigned device, unsigned pin) {
    for (size_t i = 0; i < routed.pins_length; i++) {
        const struct acpiroute_pin *it = &pins[i];
        if (it->segment == 0 && it->bus == bus && it->device == device && it->pin == pin)
            return (struct route){1, {it->interrupt, it->level, it->low}};
    }
    return (struct route){0};
}

struct route route_of_sci(void) {
    return (struct route){routed.sci.is_known, {routed.sci.interrupt, routed.sci.level, routed.sci.low}};
}

/* The report as a text, for whoever reads the console, and for the I/O APICs. The record is that of the run, so no access is wanted. */

static void print_report(void) {
    uint32_t no_avoid = 0;
    struct acpiroute_wanted wanted;
    struct acpiroute_reply reply;
    uint32_t came = acpiroute_configure_tables(&settings, &no_avoid, 0, machine->rsdp, machine->parts, machine->count, osi,
                                               sizeof osi - 1, record, record_length, report, sizeof report - 1, fault, sizeof fault,
                                               &reply, &wanted);
    if (came != ACPIROUTE_REPLIED || reply.status != routed.status)
        stop("the report is of another run");
    say_bytes(report, reply.text_length);
}

static uint64_t number_of(const char *digits, unsigned base) {
    uint64_t value = 0;
    for (; *digits; digits++)
        value = value * base + (uint64_t)(*digits <= '9' ? *digits - '0' : *digits - 'A' + 10);
    return value;
}

/* The lines `ioapic ID at ADDRESS base INTERRUPT`. */
static void find_io_apics(void) {
    for (char *at = (char *)report; *at; at++) {
        const char *words[6];
        unsigned count = 0;
        for (int is_end = 0; !is_end; at += !is_end) {
            if (count < 6)
                words[count] = at;
            count++;
            while (*at != ' ' && *at != '\n')
                at++;
            is_end = *at == '\n';
            *at = 0;
        }
        if (count == 6 && is_same_text(words[0], "ioapic"))
            io_apic_add(number_of(words[3], 16), (uint32_t)number_of(words[5], 10));
    }
}

void routing_run(const struct tables *tables, const struct acpiroute_settings *given, enum spoil spoil) {
    machine = tables;
    settings = *given;
    uint64_t base = memory_use.most_bytes = memory_use.bytes, allocations = memory_use.allocations;
    run(spoil);
    say("measured: %u accesses, %u calls, %u us, the longest %u us, %u allocations, at most %u bytes", (uint64_t)record_length,
        measured.calls, measured.time, measured.longest, memory_use.allocations - allocations, memory_use.most_bytes - base);
    print_report();
    if (settings.mode & ACPIROUTE_APIC)
        find_io_apics();
}
