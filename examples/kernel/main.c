/*
 * Boots, routes, and tries on each device that the interrupt of the report is the one that comes. The words of the command line:
 *
 *     apic        the I/O APICs are used, and else the 8259 controllers
 *     wide        the AML is evaluated in the wide profile, and else in the core one
 *     few         calls may be 4 deep and terms 16 levels, and else 32 and 64
 *     no-levels   terms may be one level deep, so the run has to be refused
 *     no-sse      SSE instructions are undefined; else they are enabled
 *     wrong       tries the interrupt after that of the report, so everything has to fail
 *     spoil       changes an entry of the record, so the run has to be stopped
 */
#include "kernel.h"

struct start_info { uint32_t magic, version, flags, modules; uint64_t module_list, words, rsdp, map; uint32_t map_length, zero; };
struct map_entry { uint64_t at, size; uint32_t kind, zero; };
extern uint8_t kernel_end[], stack_bottom[], stack_top[];

static char words[64];

static int is_asked(const char *word) {
    size_t length = length_of(word);
    for (size_t i = 0; i + length <= sizeof words; i++)
        if (is_same(words + i, word, length))
            return 1;
    return 0;
}

/* SSE needs CR0.EM = 0, CR0.MP = 1, and OSFXSR in CR4. With EM = 1 each such instruction is an exception. */
static void sse_set(int is_on) {
    uint64_t cr0, cr4;
    __asm__ volatile("mov %%cr0, %0; mov %%cr4, %1" : "=r"(cr0), "=r"(cr4));
    cr0 = is_on ? (cr0 & ~4ull) | 2 : cr0 | 4;
    cr4 = is_on ? cr4 | 0x600 : cr4 & ~0x600ull;
    __asm__ volatile("mov %0, %%cr0; mov %1, %%cr4" : : "r"(cr0), "r"(cr4) : "memory");
}

/* Gives the allocator the memory behind the kernel, up to the end of its entry of the map. */
static void memory_find(const struct start_info *info) {
    const struct map_entry *map = (const struct map_entry *)info->map;
    uint64_t start = ((uint64_t)kernel_end + 0xFFFF) & ~0xFFFFULL;
    for (uint32_t i = 0; i < info->map_length; i++)
        if (map[i].kind == 1 && map[i].at <= start && start < map[i].at + map[i].size) {
            memory_over((uint8_t *)start, (uint8_t *)(map[i].at + map[i].size));
            return;
        }
    stop("the map has no memory behind the kernel");
}

/* The bytes of the stack down to the deepest one that was written: all were filled with A5 before. */
static uint64_t stack_used(void) {
    uint8_t *at = stack_bottom;
    while (at < stack_top && *at == 0xA5)
        at++;
    return (uint64_t)(stack_top - at);
}

/* How the machine is configured. With `kernel` the report has the lines `trigger` and `bus`, as the run for the pins has them. */
static struct acpiroute_settings settings_asked(void) {
    struct acpiroute_settings settings = {.steps = 1000000, .mode = ACPIROUTE_PIC, .kernel = 1, .calls = 32, .levels = 64};
    if (is_asked("apic"))
        settings.mode = ACPIROUTE_APIC;
    if (is_asked("wide"))
        settings.mode |= ACPIROUTE_WIDE;
    if (is_asked("few")) {
        settings.calls = 4;
        settings.levels = 16;
    }
    if (is_asked("no-levels"))
        settings.levels = 1;
    return settings;
}

void kernel_main(const struct start_info *given) {
    memset(stack_bottom, 0xA5, (size_t)((uint8_t *)__builtin_frame_address(0) - 512 - stack_bottom));
    struct start_info info = *given;
    if (info.words)
        memcpy(words, (const void *)info.words, sizeof words - 1);
    sse_set(!is_asked("no-sse"));
    memory_find(&info);
    interrupts_start();
    static struct tables machine;
    struct fixed_ports ports = tables_at(&machine, info.rsdp);
    if (ports.timer == 0)
        stop("no power management timer");
    clock_at(ports.timer);
    say("stack: %u bytes", stack_used());

    ticks_start();
    struct acpiroute_settings settings = settings_asked();
    routing_run(&machine, &settings, is_asked("spoil") ? SPOILED : NOT_SPOILED);
    say("interrupts of the timer meanwhile: %u; stack: %u bytes", ticks_stop(), stack_used());
    if (stack_used() == (uint64_t)(stack_top - stack_bottom))
        stop("the stack is too small");

    if (is_asked("apic"))
        io_apic_start();
    struct tried tried = devices_try(ports.events, is_asked("wrong"));
    say("tried %u devices and the SCI: %u bad", (uint64_t)tried.devices, (uint64_t)tried.bad);
    leave(tried.bad == 0 && tried.devices > 0);
}
