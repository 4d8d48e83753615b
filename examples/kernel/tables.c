/*
 * The ACPI tables where they stand in memory: RSDP, RSDT or XSDT, FADT, DSDT, MADT and SSDTs. A table of another signature is listed in
 * the RSDT or XSDT, so its signature has to be among the parts (else the machine is refused by 13), but no more of it.
 */
#include "kernel.h"

static uint64_t number_at(uint64_t at, unsigned bytes) {
    uint64_t value = 0;
    memcpy(&value, (const void *)at, bytes);
    return value;
}

static int is_named(uint64_t table, const char *name) {
    return is_same((const void *)table, name, 4);
}

static void add(struct tables *tables, uint64_t at, uint64_t length) {
    if (tables->count == sizeof tables->parts / sizeof *tables->parts)
        stop("too many tables");
    tables->parts[tables->count++] = (struct acpiroute_part){at, (const uint8_t *)at, length};
}

static void add_table(struct tables *tables, uint64_t at) {
    static const char *const wanted[] = {"RSDT", "XSDT", "FACP", "DSDT", "APIC", "SSDT"};
    char name[5] = {0};
    uint64_t length = 4;
    memcpy(name, (const void *)at, 4);
    for (unsigned i = 0; i < sizeof wanted / sizeof *wanted; i++)
        if (is_named(at, wanted[i]))
            length = number_at(at + 4, 4);
    say("table %s at %x, %u bytes of it are handed over", name, at, length);
    add(tables, at, length);
}

struct fixed_ports tables_at(struct tables *tables, uint64_t rsdp) {
    struct fixed_ports ports = {0};
    int is_extended = number_at(rsdp + 15, 1) >= 2 && number_at(rsdp + 24, 8) != 0;
    uint64_t root = is_extended ? number_at(rsdp + 24, 8) : number_at(rsdp + 16, 4);
    unsigned step = is_extended ? 8 : 4;
    tables->rsdp = rsdp;
    add(tables, rsdp, is_extended ? 36 : 20);
    add_table(tables, root);
    for (uint64_t at = root + 36; at < root + number_at(root + 4, 4); at += step) {
        uint64_t table = number_at(at, step);
        add_table(tables, table);
        if (is_named(table, "FACP")) {
            ports.timer = (uint16_t)number_at(table + 76, 4);
            ports.events = (uint16_t)number_at(table + 56, 4);
            add_table(tables, number_at(table + 40, 4));
        }
    }
    return ports;
}
