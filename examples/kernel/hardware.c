/* Ports, PCI configuration registers, and time. */
#include "kernel.h"

static uint32_t port_read(uint16_t port, unsigned width) {
    return width == 8 ? in8(port) : width == 16 ? in16(port) : in32(port);
}

static void port_write(uint16_t port, unsigned width, uint32_t value) {
    if (width == 8)
        out8(port, (uint8_t)value);
    else if (width == 16)
        out16(port, (uint16_t)value);
    else
        out32(port, value);
}

/* The window of a register behind the port CF8, which names it. */
static uint16_t pci_window(struct pci_place place, unsigned at) {
    out32(0xCF8, 0x80000000u | (uint32_t)place.bus << 16 | (uint32_t)place.device << 11 | (uint32_t)place.function << 8 | (at & 0xFC));
    return (uint16_t)(0xCFC + (at & 3));
}

uint32_t pci_read(struct pci_place place, unsigned at, unsigned width) {
    return port_read(pci_window(place, at), width);
}

void pci_write(struct pci_place place, unsigned at, unsigned width, uint32_t value) {
    port_write(pci_window(place, at), width, value);
}

/* Memory below 4 GiB is mapped where it is. */
static void memory_access(struct acpiroute_access *access) {
    volatile void *at = (volatile void *)access->address;
    if (access->kind == ACPIROUTE_READ)
        access->value = access->width == 8    ? *(volatile uint8_t *)at
                        : access->width == 16 ? *(volatile uint16_t *)at
                        : access->width == 32 ? *(volatile uint32_t *)at
                                              : *(volatile uint64_t *)at;
    else if (access->width == 8)
        *(volatile uint8_t *)at = (uint8_t)access->value;
    else if (access->width == 16)
        *(volatile uint16_t *)at = (uint16_t)access->value;
    else if (access->width == 32)
        *(volatile uint32_t *)at = (uint32_t)access->value;
    else
        *(volatile uint64_t *)at = access->value;
}

static void port_access(struct acpiroute_access *access) {
    if (access->kind == ACPIROUTE_READ)
        access->value = port_read((uint16_t)access->address, access->width);
    else
        port_write((uint16_t)access->address, access->width, (uint32_t)access->value);
}

static void pci_access(struct acpiroute_access *access) {
    struct pci_place place = {access->bus, access->device, access->function};
    if (access->kind == ACPIROUTE_READ)
        access->value = pci_read(place, (unsigned)access->address, access->width);
    else
        pci_write(place, (unsigned)access->address, access->width, (uint32_t)access->value);
}

/* Whether the ports CF8 and CFC reach a register in one access. */
static int is_reached(const struct acpiroute_access *access) {
    return access->segment == 0 && access->width <= 32 && access->address < 256 && access->address % (access->width / 8) == 0;
}

void make_access(struct acpiroute_access *access) {
    access->answer = ACPIROUTE_ANSWERED;
    if (access->space == ACPIROUTE_MEMORY && access->address <= 0x100000000u - access->width / 8)
        memory_access(access);
    else if (access->space == ACPIROUTE_IO && access->width <= 32)
        port_access(access);
    else if (access->space == ACPIROUTE_PCI && is_reached(access))
        pci_access(access);
    else
        access->answer = ACPIROUTE_NO_REGISTER;
}

/* The power management timer has 24 bits at least, and 3,579,545 ticks a second. */

static uint16_t clock_port;

void clock_at(uint16_t port) {
    clock_port = port;
    microseconds();
}

uint64_t microseconds(void) {
    static uint32_t last;
    static uint64_t ticks;
    uint32_t now = in32(clock_port) & 0xFFFFFF;
    ticks += (now - last) & 0xFFFFFF;
    last = now;
    return ticks * 1000000 / 3579545;
}
