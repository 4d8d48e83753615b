/* The devices whose pins software can raise: the interrupt that the report names has to come for each, and no other. */
#include "kernel.h"

/* A kind of device: what is written to which of its registers so that its pin is raised, and lowered. */
struct kind { uint32_t id; const char *name; unsigned raise, raised_by, prepare, prepared_by, lower_write, lower_by, lower_read; };
static const struct kind kinds[] = {
    {0x11E81234, "edu", 0x60, 1, 0, 0, 0x64, 0xFFFFFFFF, 0x24},
    {0x100E8086, "e1000", 0xC8, 4, 0xD0, 4, 0xD8, 0xFFFFFFFF, 0xC0},
    {0x10D38086, "e1000e", 0xC8, 4, 0xD0, 4, 0xD8, 0xFFFFFFFF, 0xC0},
};
struct device { struct pci_place place; const struct kind *kind; volatile uint8_t *registers; unsigned pin; };
static struct device devices[64];
static unsigned device_count;
/* The bridge that leads to each bus. */
static struct { int is_behind; struct pci_place bridge; } buses[256];
static const struct device *volatile tried_device;
static unsigned faults;

static volatile uint32_t *register_of(const struct device *it, unsigned at) {
    return (volatile uint32_t *)(it->registers + at);
}

static void lower(void) {
    if (!tried_device)
        return;
    if (tried_device->kind->lower_write)
        *register_of(tried_device, tried_device->kind->lower_write) = tried_device->kind->lower_by;
    (void)*register_of(tried_device, tried_device->kind->lower_read);
}

static void raise(const struct device *it) {
    if (it->kind->prepare)
        *register_of(it, it->kind->prepare) = it->kind->prepared_by;
    *register_of(it, it->kind->raise) = it->kind->raised_by;
}

static int is_raised(const struct device *it) {
    return (pci_read(it->place, 6, 16) & 8) != 0;
}

/* Finding them. */

static void enable(struct pci_place place) {
    /* Memory and bus master on, INTx not disabled. */
    pci_write(place, 4, 16, (pci_read(place, 4, 16) | 6) & ~0x400u);
}

static void add_device(struct pci_place place, const struct kind *kind) {
    uint32_t base = pci_read(place, 0x10, 32) & ~15u;
    unsigned pin = pci_read(place, 0x3D, 8);
    if (base == 0 || pin == 0 || pin > 4 || device_count == 64)
        stop("a device without registers or a pin");
    enable(place);
    devices[device_count++] = (struct device){place, kind, (volatile uint8_t *)(uint64_t)base, pin - 1};
}

static void walk(unsigned bus) {
    for (unsigned i = 0; i < 256; i++) {
        struct pci_place place = {(uint8_t)bus, (uint8_t)(i / 8), (uint8_t)(i % 8)};
        struct pci_place first = {place.bus, place.device, 0};
        if (place.function > 0 && (pci_read(first, 0, 16) == 0xFFFF || !(pci_read(first, 0x0E, 8) & 0x80)))
            continue;
        uint32_t id = pci_read(place, 0, 32);
        if (id == 0xFFFFFFFF)
            continue;
        unsigned behind = (pci_read(place, 0x0E, 8) & 0x7F) == 1 ? pci_read(place, 0x19, 8) : 0;
        if (behind > bus) {
            enable(place);
            buses[behind].is_behind = 1;
            buses[behind].bridge = place;
            walk(behind);
        }
        for (unsigned k = 0; k < sizeof kinds / sizeof *kinds; k++)
            if (kinds[k].id == id)
                add_device(place, &kinds[k]);
    }
}

/*
 * The route of a device's pin. There are routes for the buses whose bridges have a `_PRT`. A pin behind a bridge without one
 * is a pin of the bridge itself, as PCI bridges turn them: pin P of device D is pin (P + D) mod 4.
 */
static struct route routed(const struct device *it) {
    unsigned bus = it->place.bus, device = it->place.device, pin = it->pin;
    while (!has_table(bus) && buses[bus].is_behind) {
        pin = (pin + device) % 4;
        device = buses[bus].bridge.device;
        bus = buses[bus].bridge.bus;
    }
    struct route route = route_of(bus, device, pin);
    char name[2] = {"ABCD"[pin], 0};
    say("device %s at %x:%x.%x: pin %s of device %u on bus %u: %s %u %s %s", it->kind->name, (uint64_t)it->place.bus,
        (uint64_t)it->place.device, (uint64_t)it->place.function, name, (uint64_t)device, (uint64_t)bus,
        route.is_found ? "interrupt" : "NOT IN THE REPORT", (uint64_t)route.line.interrupt, route.line.is_level ? "level" : "edge",
        route.line.is_low ? "low" : "high");
    return route;
}

/* Trying them. */

static void forget(void) {
    for (unsigned i = 0; i < VECTORS; i++)
        fired[i] = 0;
}

static void wait(uint64_t time) {
    for (uint64_t start = microseconds(); microseconds() - start < time;)
        ;
}

static void wait_for(unsigned vector, uint32_t count) {
    for (uint64_t start = microseconds(); microseconds() - start < 200000 && fired[vector] < count;)
        ;
    wait(5000);
}

static void expect(int it_holds, const char *what) {
    if (it_holds)
        return;
    faults++;
    say("  FAILED: %s", what);
}

/*
 * How many lines fired, but for one; each is told. ISA lines that come beside an interrupt above them are echoes, and don't
 * count: QEMU's q35 hands a pin to the I/O APIC under the number of its 8259 route too, as the firmware has set it.
 */
static unsigned others(unsigned but, uint32_t interrupt) {
    unsigned count = 0;
    for (unsigned vector = PIC_VECTOR; vector < VECTORS; vector++) {
        uint32_t line = vector - vector_of(0);
        int is_echo = interrupt >= 16 && line < 16;
        if (vector == but || fired[vector] == 0)
            continue;
        say("  %s: %u came %u times", is_echo ? "echo" : "another interrupt", (uint64_t)line, (uint64_t)fired[vector]);
        count += !is_echo;
    }
    return count;
}

/* Only this line is open: exactly it comes, once for a pin that was raised before, and once more for one that is raised now. */
static void try_open(const struct device *it, struct line line) {
    unsigned vector = vector_of(line.interrupt);
    line_set(line, 1);
    wait_for(vector, 1);
    expect(fired[vector] == 1, "the interrupt of the report did not come once");
    expect(!is_raised(it), "the pin is still raised");
    raise(it);
    wait_for(vector, 2);
    expect(fired[vector] == 2, "raised again, the interrupt did not come once more");
    expect(others(vector, line.interrupt) == 0, "others came too");
}

/* All lines but this one are open, and those of the timer (0, by the I/O APIC 2) and of the cascade: none comes. */
static void try_others(const struct device *it, struct line line) {
    lines_close();
    for (uint32_t other = 1; other < interrupts_end(); other++)
        if (other != 2 && other != line.interrupt)
            line_set((struct line){other, line.is_level, line.is_low}, 1);
    line_set(line, 0);
    wait(1000);
    forget();
    raise(it);
    wait(20000);
    expect(others(0, line.interrupt) == 0, "the interrupt came on lines that the report does not name");
    lower();
    lines_close();
}

static void try_device(const struct device *it, unsigned wrong) {
    struct route route = routed(it);
    expect(route.is_found, "the report does not have the pin");
    if (!route.is_found)
        return;
    route.line.interrupt = (route.line.interrupt + wrong) % interrupts_end();
    tried_device = it;
    make_quiet = lower;
    lower();
    lines_close();
    line_set(route.line, 0);
    forget();
    raise(it);
    wait(5000);
    expect(is_raised(it), "the device does not say that its pin is raised");
    expect(others(0, route.line.interrupt) == 0, "interrupts came with all lines closed");
    try_open(it, route.line);
    try_others(it, route.line);
    tried_device = NULL;
}

/* The System Control Interrupt, by the overflow of the power management timer, which comes every 2.3 seconds. */

static uint16_t event_ports;

static void clear_events(void) {
    out16(event_ports + 2, 0);
    out16(event_ports, in16(event_ports));
}

static void try_sci(unsigned wrong) {
    struct route route = route_of_sci();
    expect(route.is_found, "the report has no SCI");
    route.line.interrupt += wrong;
    unsigned vector = vector_of(route.line.interrupt);
    say("sci: interrupt %u %s %s", (uint64_t)route.line.interrupt, route.line.is_level ? "level" : "edge",
        route.line.is_low ? "low" : "high");
    lines_close();
    line_set(route.line, 0);
    clear_events();
    make_quiet = clear_events;
    forget();
    out16(event_ports + 2, 1);
    wait(2500000);
    expect(in16(event_ports) & 1, "the timer did not overflow");
    expect(others(0, 0) == 0, "interrupts came with all lines closed");
    line_set(route.line, 1);
    wait_for(vector, 1);
    expect(fired[vector] == 1, "the SCI did not come once");
    expect(others(vector, 0) == 0, "others came too");
    lines_close();
}

/* Tries a device or the SCI, and says how it came out. */
static unsigned judged(unsigned faults_before) {
    say("  %s", faults == faults_before ? "good" : "BAD");
    return faults != faults_before;
}

struct tried devices_try(uint16_t events, unsigned wrong) {
    struct tried tried = {0};
    walk(0);
    for (unsigned bus = 1; bus < 256; bus++)
        if (has_table(bus) && !buses[bus].is_behind)
            walk(bus);
    for (unsigned i = 0; i < device_count; i++) {
        unsigned before = faults;
        try_device(&devices[i], wrong);
        tried.devices++;
        tried.bad += judged(before);
    }
    unsigned before = faults;
    event_ports = events;
    try_sci(wrong);
    tried.bad += judged(before);
    return tried;
}
