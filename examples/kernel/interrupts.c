/* The interrupt descriptor table, the 8259 controllers, and the I/O APICs. */
#include "kernel.h"

struct frame { uint64_t vector, error, ip, cs, flags, sp, ss; };

extern uint8_t stubs[];
volatile uint32_t fired[VECTORS];
void (*volatile make_quiet)(void);
static struct { uint16_t low, code, kind, middle; uint32_t high, zero; } gates[VECTORS];
static volatile uint32_t *const local_apic = (volatile uint32_t *)0xFEE00000;
static struct { volatile uint32_t *at; uint32_t base, count; } io_apics[8];
static unsigned io_apic_count;
static int is_apic;
static uint16_t pic_open;

/* The 8259s. */

static void pic_start(void) {
    /* Vectors from PIC_VECTOR on, the second one behind line 2. */
    out8(0x20, 0x11), out8(0xA0, 0x11);
    out8(0x21, PIC_VECTOR), out8(0xA1, PIC_VECTOR + 8);
    out8(0x21, 4), out8(0xA1, 2);
    out8(0x21, 1), out8(0xA1, 1);
}

static void pic_masks(uint16_t masks) {
    out8(0x21, (uint8_t)masks);
    out8(0xA1, (uint8_t)(masks >> 8));
}

/*
 * A link's `_SRS` sets which line a pin drives. That the 8259 takes the line as a level is the kernel's to set, by the edge/level
 * control registers at 4D0 and 4D1.
 */
static void pic_line_set(struct line line, int is_open) {
    uint16_t port = line.interrupt < 8 ? 0x4D0 : 0x4D1;
    uint8_t bit = (uint8_t)(1 << line.interrupt % 8);
    out8(port, line.is_level ? in8(port) | bit : in8(port) & ~bit);
    if (is_open)
        pic_open |= (uint16_t)(1 << line.interrupt | (line.interrupt >= 8 ? 4 : 0));
    pic_masks((uint16_t)~pic_open);
}

/* The I/O APICs. */

static void io_apic_write(volatile uint32_t *at, unsigned index, uint32_t value) {
    at[0] = index;
    at[4] = value;
}

void io_apic_add(uint64_t address, uint32_t base) {
    if (io_apic_count == 8 || address > 0xFFFFFF00)
        stop("an I/O APIC out of reach");
    volatile uint32_t *at = (volatile uint32_t *)address;
    at[0] = 1;
    io_apics[io_apic_count].at = at;
    io_apics[io_apic_count].base = base;
    io_apics[io_apic_count].count = (at[4] >> 16 & 0xFF) + 1;
    io_apic_count++;
}

void io_apic_start(void) {
    if (io_apic_count == 0)
        stop("the report names no I/O APIC");
    local_apic[0x80 / 4] = 0;                   /* all priorities */
    local_apic[0xF0 / 4] = 0x1FF;               /* enabled; spurious interrupts on 0xFF */
    local_apic[0x350 / 4] = 0x10000;            /* nothing from the 8259 */
    pic_masks(0xFFFF);
    is_apic = 1;
    lines_close();
}

static void io_apic_line_set(struct line line, int is_open) {
    for (unsigned i = 0; i < io_apic_count; i++) {
        uint32_t pin = line.interrupt - io_apics[i].base;
        if (line.interrupt < io_apics[i].base || pin >= io_apics[i].count)
            continue;
        io_apic_write(io_apics[i].at, 0x11 + 2 * pin, local_apic[0x20 / 4] & 0xFF000000);
        io_apic_write(io_apics[i].at, 0x10 + 2 * pin,
                      vector_of(line.interrupt) | (uint32_t)line.is_low << 13 | (uint32_t)line.is_level << 15 | (is_open ? 0 : 0x10000));
    }
}

/* Both. */

unsigned vector_of(uint32_t interrupt) {
    return (is_apic ? APIC_VECTOR : PIC_VECTOR) + interrupt;
}

/* One past the last interrupt that the controllers have. */
uint32_t interrupts_end(void) {
    uint32_t end = 16;
    for (unsigned i = 0; is_apic && i < io_apic_count; i++)
        if (io_apics[i].base + io_apics[i].count > end)
            end = io_apics[i].base + io_apics[i].count;
    return end;
}

/* A line that is closed keeps its polarity and its trigger, which count for what comes in meanwhile. */
void line_set(struct line line, int is_open) {
    if (is_apic)
        io_apic_line_set(line, is_open);
    else
        pic_line_set(line, is_open);
}

void lines_close(void) {
    pic_open = 0;
    pic_masks(0xFFFF);
    for (unsigned i = 0; is_apic && i < io_apic_count; i++)
        for (unsigned pin = 0; pin < io_apics[i].count; pin++)
            io_apic_write(io_apics[i].at, 0x10 + 2 * pin, 0x10000);
}

void interrupt(struct frame *frame) {
    uint64_t vector = frame->vector;
    if (vector < 32) {
        say("exception %u, error %x, at %x, stack %x", vector, frame->error, frame->ip, frame->sp);
        stop("an exception");
    }
    fired[vector]++;
    if (make_quiet)
        make_quiet();
    if (vector >= APIC_VECTOR) {
        local_apic[0xB0 / 4] = 0;
    } else {
        if (vector >= PIC_VECTOR + 8)
            out8(0xA0, 0x20);
        out8(0x20, 0x20);
    }
    /* A level that nothing lowers would come for ever. */
    if (fired[vector] > 1000 && vector != PIC_VECTOR)
        lines_close();
}

void interrupts_start(void) {
    for (unsigned i = 0; i < VECTORS; i++) {
        uint64_t stub = (uint64_t)(stubs + 16 * i);
        gates[i].low = (uint16_t)stub;
        gates[i].code = 0x08;
        gates[i].kind = 0x8E00;                 /* on the stack of what is interrupted */
        gates[i].middle = (uint16_t)(stub >> 16);
        gates[i].high = (uint32_t)(stub >> 32);
    }
    struct { uint16_t limit; uint64_t at; } __attribute__((packed)) pointer = {sizeof gates - 1, (uint64_t)gates};
    __asm__ volatile("lidt %0" : : "m"(pointer));
    pic_start();
    pic_masks(0xFFFF);
    __asm__ volatile("sti");
}

void ticks_start(void) {
    out8(0x43, 0x34), out8(0x40, 1193 & 0xFF), out8(0x40, 1193 >> 8);
    pic_masks(0xFFFE);
}

uint64_t ticks_stop(void) {
    pic_masks(0xFFFF);
    out8(0x43, 0x30);
    return fired[PIC_VECTOR];
}
