/* The parts of the kernel, and what each offers. */
#ifndef KERNEL_H
#define KERNEL_H

#include <stddef.h>
#include <stdint.h>

#include "acpiroute.h"
#include "acpiroute_memory.h"

/* console.c: a line on the first serial port. In the form %s is a text, %u a decimal and %x a hexadecimal number of 64 bits. */
void say(const char *form, ...);
void say_bytes(const uint8_t *at, size_t length);
_Noreturn void stop(const char *why);
/* Ends QEMU, by its device isa-debug-exit. */
_Noreturn void leave(int is_good);

/* memory.c: the six functions that the library needs, three of them over an allocator. */
void memory_over(uint8_t *start, uint8_t *end);
/* What it has given out: blocks and bytes now, the most bytes at once, and allocations in all. */
extern struct memory_use { uint64_t blocks, bytes, most_bytes, allocations; } memory_use;
void *memcpy(void *to, const void *from, size_t length);
void *memmove(void *to, const void *from, size_t length);
void *memset(void *to, int byte, size_t length);
int is_same(const void *left, const void *right, size_t length);
int is_same_text(const char *left, const char *right);
size_t length_of(const char *text);

/* hardware.c: ports, PCI configuration registers, and the power management timer. */
static inline void out8(uint16_t port, uint8_t value) { __asm__ volatile("outb %0, %1" : : "a"(value), "Nd"(port) : "memory"); }
static inline void out16(uint16_t port, uint16_t value) { __asm__ volatile("outw %0, %1" : : "a"(value), "Nd"(port) : "memory"); }
static inline void out32(uint16_t port, uint32_t value) { __asm__ volatile("outl %0, %1" : : "a"(value), "Nd"(port) : "memory"); }
#define PORT_READ(name, type, code) \
    static inline type name(uint16_t port) { \
        type value; \
        __asm__ volatile(code " %1, %0" : "=a"(value) : "Nd"(port) : "memory"); \
        return value; \
    }
PORT_READ(in8, uint8_t, "inb")
PORT_READ(in16, uint16_t, "inw")
PORT_READ(in32, uint32_t, "inl")
struct pci_place { uint8_t bus, device, function; };
uint32_t pci_read(struct pci_place place, unsigned at, unsigned width);
void pci_write(struct pci_place place, unsigned at, unsigned width, uint32_t value);
/* Makes an access that the library wants, and fills in its answer. */
void make_access(struct acpiroute_access *access);
void clock_at(uint16_t port);
uint64_t microseconds(void);

/* interrupts.c: the descriptor table, the 8259 controllers, and the I/O APICs. */
enum { PIC_VECTOR = 0x20, APIC_VECTOR = 0x30, VECTORS = 256 };
/* A line of a controller: its number (of the whole machine), and how its device drives it. */
struct line { uint32_t interrupt; uint8_t is_level, is_low; };
/* How often each vector came, and what the handler calls, if it is set, before it ends an interrupt. */
extern volatile uint32_t fired[VECTORS];
extern void (*volatile make_quiet)(void);
/* Interrupts run on the stack of whatever they interrupt, and so on that of the library's calls. */
void interrupts_start(void);
/* A timer that interrupts 1,000 times a second, by the 8259. */
void ticks_start(void);
uint64_t ticks_stop(void);
void io_apic_add(uint64_t address, uint32_t base);
/* From here on the I/O APICs are used, and not the 8259. */
void io_apic_start(void);
uint32_t interrupts_end(void);
void line_set(struct line line, int is_open);
void lines_close(void);
unsigned vector_of(uint32_t interrupt);

/* tables.c: the ACPI tables where they stand in memory. */
struct tables { uint64_t rsdp; struct acpiroute_part parts[320]; size_t count; };
/* What the kernel itself takes from the FADT: the ports of the power management timer and of its fixed events. */
struct fixed_ports { uint16_t timer, events; };
struct fixed_ports tables_at(struct tables *tables, uint64_t rsdp);

/* routing.c: the run of the library by its settings, and where it routes each pin. */
enum spoil { NOT_SPOILED, SPOILED };
void routing_run(const struct tables *machine, const struct acpiroute_settings *settings, enum spoil spoil);
struct route { int is_found; struct line line; };
/* That of a pin (0 for A) of a device on a bus that has a routing table, and that of the System Control Interrupt. */
struct route route_of(unsigned bus, unsigned device, unsigned pin);
struct route route_of_sci(void);
/* Whether a bus has a routing table of its own. */
int has_table(unsigned bus);

/* devices.c: the devices whose pins software can raise, each tried with its route. */
struct tried { unsigned devices, bad; };
struct tried devices_try(uint16_t events, unsigned wrong);

#endif
