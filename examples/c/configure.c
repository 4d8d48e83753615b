/*
 * A host in C whose registers only it can access: it configures the links of a machine on the model of a chipset.
 *
 *     configure MACHINE [dry] [pic] [avoid=NUMBER]
 *
 * It prints the report, and on its errors the registers as they are at the end. Its exit status is that of `acpiroute route`.
 */
#include <inttypes.h>
#include <stdio.h>
#include <stdlib.h>
#include <string.h>

#include "acpiroute.h"
#include "bytes.h"
#include "chipset.h"

/* The accesses that were made, with their answers. */
struct record {
    struct acpiroute_access *at;
    size_t length;
    size_t room;
};

static void grow(struct record *record) {
    record->room = record->room > 0 ? 2 * record->room : 16;
    record->at = realloc(record->at, record->room * sizeof *record->at);
    if (record->at == NULL)
        stop("out of memory");
}

static void append(struct record *record, struct acpiroute_access access) {
    if (record->length == record->room)
        grow(record);
    record->at[record->length++] = access;
}

static void print_registers(const struct chipset *chipset) {
    fprintf(stderr, "pci 0 0 1 0 60");
    for (size_t pin = 0; pin < sizeof chipset->routing; pin++)
        fprintf(stderr, " %02X", chipset->routing[pin]);
    fprintf(stderr, "\nbehind C00");
    for (size_t i = 0; i < sizeof chipset->behind; i++)
        fprintf(stderr, " %02X", chipset->behind[i]);
    fprintf(stderr, "\n");
}

/* What the words ask for; at most one interrupt is avoided. */
struct asked {
    struct acpiroute_settings settings;
    uint32_t avoid[1];
    size_t avoid_length;
};

static struct asked asked_by(int count, char **words) {
    struct asked asked = {{1000000, ACPIROUTE_APIC, 0, 0, 0, 0}, {0}, 0};
    for (int i = 2; i < count; i++) {
        if (strcmp(words[i], "dry") == 0) {
            asked.settings.dry = 1;
        } else if (strcmp(words[i], "pic") == 0) {
            asked.settings.mode = ACPIROUTE_PIC;
        } else if (strncmp(words[i], "avoid=", 6) == 0) {
            asked.avoid[0] = (uint32_t)strtoul(words[i] + 6, NULL, 10);
            asked.avoid_length = 1;
        } else {
            stop("another word than dry, pic or avoid=NUMBER");
        }
    }
    return asked;
}

/* Calls until no access is wanted, making each on the chipset. */
static uint8_t configure(struct chipset *chipset, struct bytes machine, const struct asked *asked) {
    struct record record = {NULL, 0, 0};
    struct bytes text = room(256);
    struct bytes line = room(64);
    grow(&record);
    for (;;) {
        struct acpiroute_reply reply;
        struct acpiroute_wanted wanted;
        uint32_t came = acpiroute_configure(&asked->settings, asked->avoid, asked->avoid_length, machine.at, machine.length,
                                            record.at, record.length, text.at, text.length, line.at, line.length, &reply, &wanted);
        if (came == ACPIROUTE_WANTED && wanted.entry < record.length) {
            stop("the record is not of this run");
        } else if (came == ACPIROUTE_WANTED) {
            chipset_access(chipset, &wanted.access);
            append(&record, wanted.access);
        } else if (came == ACPIROUTE_TOO_SMALL) {
            free(text.at);
            free(line.at);
            text = room(reply.text_length);
            line = room(reply.line_length);
        } else if (came == ACPIROUTE_REPLIED) {
            fwrite(text.at, 1, reply.text_length, stdout);
            fwrite(line.at, 1, reply.line_length, stderr);
            return reply.status;
        } else {
            stop(came == ACPIROUTE_NO_MEMORY ? "out of memory" : "the record is malformed");
        }
    }
}

int main(int count, char **words) {
    if (count < 2)
        stop("a machine text is wanted");
    struct asked asked = asked_by(count, words);
    struct chipset chipset;
    chipset_reset(&chipset);
    uint8_t status = configure(&chipset, read_file(words[1]), &asked);
    print_registers(&chipset);
    return status;
}
