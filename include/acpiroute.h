/*
 * acpiroute: a proved ACPI interrupt router, over memory.
 *
 * Five calls do what the commands of the program `acpiroute` do, with input, output and error line in memory. They are proved to have
 * the contract of that program, whose README says what the commands do, and what their options are. Six further calls are over a
 * record, for a machine whose registers only the caller can access: `acpiroute_configure` does what `route` does,
 * `acpiroute_configure_pins` the same with the routing as plain numbers, and `acpiroute_evaluate` does what `eval` does, with the tables
 * from a machine text; and the same three over the tables as they stand in memory. A kernel wants `acpiroute_configure_tables_pins`.
 *
 * What a caller has to keep to, which nothing checks:
 *
 * - No pointer is NULL, also where the length behind it is 0. Each points to as many elements as the length behind it says, and is
 *   aligned for them; what is read and what is filled is in no case above PTRDIFF_MAX bytes.
 * - What is read doesn't change during a call. The two buffers, the reply and the place of an access overlap neither one another nor
 *   what is read.
 * - Calls take memory from the three functions of `acpiroute_memory.h`, and give all of it back before they return. In a program
 *   these are over `malloc`, `realloc` and `free`, so no call is made from a signal handler, nor from the child of a fork in a
 *   program with threads. A kernel defines them itself.
 * - The code is that of the library that was linked:
 *
 *                                  for programs            libacpiroute_kernel.a    libacpiroute_kernel_no_sse.a
 *     made by                      rt lib, a release       tools/kernel_library.py, a release
 *     calls                        all                     all                      the six over a record
 *     x86-64 processors            from x86-64-v2 on       all                      all
 *     registers                    general, xmm0 to xmm15  general, xmm0 to xmm15   general
 *     128 bytes below the stack    used (the red zone)     not used                 not used
 *     pointer
 *     alignment of the stack       16                      8                        8
 *     frame pointers, endbr64      no                      yes                      yes
 *     code and constants           2.6 MB                  2.5 MB                   0.9 MB
 *
 *   Where the red zone is used, nothing may run on the stack of a call while it lasts: an interrupt handler that does spoils
 *   values of the call, which then ends in an exception, or in an answer that is wrong. A library for programs is not for a
 *   kernel. Nor does it check the processor. Where xmm registers are used, SSE has to be enabled (CR0.EM = 0, CR0.MP = 1,
 *   CR4.OSFXSR = 1), and their values belong to the call while it lasts. docs/EMBEDDING.md has more about kernels.
 *
 * Each library needs `memcpy`, `memmove` and `memset` beside the three functions of memory, and nothing else: no thread-local
 * data, no unwinding, no constructors.
 *
 * Nothing is kept between two calls, and there is no global state: any number of threads may make calls at once, each over its
 * own buffers. Everything that is handed in stays the caller's. A call reads no file, prints nothing, and touches no register.
 *
 * Give a call 128 KiB of stack: at most 97 KiB were measured. `levels` of the settings (or the option `--levels`) bounds what reading
 * nested terms takes of it, and nothing else, and 16 KiB are too few whatever the setting: docs/EMBEDDING.md, "What it costs". A call takes
 * as much memory as the tables ask for. The option `--steps` bounds how many terms an evaluation begins, and neither time nor memory; the
 * option `--accesses` bounds the accesses of registers.
 */
#ifndef ACPIROUTE_H
#define ACPIROUTE_H

#include <stddef.h>
#include <stdint.h>

#ifdef __cplusplus
extern "C" {
#endif

/* How a call came out. */
enum {
    /* The whole reply is in the buffers, and its sizes and its status are in `reply`. */
    ACPIROUTE_REPLIED = 0,
    /*
     * A buffer is too small. Both buffers are as they were, and `reply` has the sizes and the status. A second call with buffers
     * of these sizes has the same reply, unless memory runs out. That is proved of what a run says; where the options have a
     * fault, it is so of the library that reads them.
     */
    ACPIROUTE_TOO_SMALL = 1,
    /*
     * Memory ran out before there was a reply. Buffers and `reply` are as they were. Where memory runs out in the run itself, there is
     * a reply: status 1 and the line `refused 99`, or status 2 while the options are read.
     */
    ACPIROUTE_NO_MEMORY = 2,
    /* A word of the options is not UTF-8. Buffers and `reply` are as they were. */
    ACPIROUTE_NOT_UTF8 = 3,
    /* An access is wanted, and stands in `wanted`. Buffers and `reply` are as they were. Only the calls over a record say so, and
     * with any other result `wanted` is as it was. */
    ACPIROUTE_WANTED = 4,
    /*
     * A number of the settings or of an access in the record is none of those that are listed here. Buffers, `reply` and `wanted` are
     * as they were. Only the calls over a record say so.
     */
    ACPIROUTE_MALFORMED = 5
};

/* What a call has said. */
struct acpiroute_reply {
    /* How many bytes the text has: what the program would write to its output. They are at the start of the buffer `text`. */
    size_t text_length;
    /*
     * How many bytes the line has: what the program would write to its errors; 0 where it writes nothing there. They are at the
     * start of the buffer `line`. A refusal is one line with a line feed at its end. With the option "--profile wide" of
     * `acpiroute_route`, `acpiroute_names` and `acpiroute_eval` lines "passed R P" stand before it, or alone, for what was passed
     * over in loading and initializing: 65 lines at most.
     */
    size_t line_length;
    /*
     * The exit status of the program: 0 it did its work, 1 refused, 2 the options are wrong or memory ran out while they were read, 3
     * the report is written and a link refused its setting, 4 `check` says no.
     */
    uint8_t status;
};

/*
 * The options are the words behind the command, parted by single blanks, with no zero byte at the end: "--mode pic --avoid 3,4".
 * There are none where their length is 0. They are `options_length` bytes. "--profile wide" is one of them.
 *
 * The rest of both buffers, behind the bytes of the reply, is left as it was, and no zero byte is put behind them.
 */

/* Chooses interrupts for the links of a machine text, sets them in that text's registers, and writes the report. */
uint32_t acpiroute_route(const uint8_t *options, size_t options_length, const uint8_t *machine, size_t machine_length,
                         uint8_t *text, size_t text_capacity, uint8_t *line, size_t line_capacity,
                         struct acpiroute_reply *reply);

/* Checks a report: the text is "yes", or "no" and the number of its first flaw, and a line feed. */
uint32_t acpiroute_check(const uint8_t *options, size_t options_length, const uint8_t *report, size_t report_length,
                         uint8_t *text, size_t text_capacity, uint8_t *line, size_t line_capacity,
                         struct acpiroute_reply *reply);

/* Writes the names of the namespace of a machine text. */
uint32_t acpiroute_names(const uint8_t *options, size_t options_length, const uint8_t *machine, size_t machine_length,
                         uint8_t *text, size_t text_capacity, uint8_t *line, size_t line_capacity,
                         struct acpiroute_reply *reply);

/*
 * Evaluates an object of a machine text; its path and its arguments are among the options: "\\_SB_.LNKA._PRS", or "\\_OSI s:Linux".
 * A string among the arguments has no blank, since blanks part the options.
 */
uint32_t acpiroute_eval(const uint8_t *options, size_t options_length, const uint8_t *machine, size_t machine_length,
                        uint8_t *text, size_t text_capacity, uint8_t *line, size_t line_capacity,
                        struct acpiroute_reply *reply);

/*
 * Tells why a machine text is refused: it makes the run of `acpiroute_route`, or, where the first of the options is "eval", as in
 * "eval \\_SB_.LNKA._PRS", that of `acpiroute_eval`, and the text says what ended it: the refusal, what was done then, the access of
 * a register that failed, and what to do; of a run that isn't refused, the links that are not set as they were to be, each with the
 * same lines below it. With "--registers" the text has the lines that the machine text lacks. The status is 0 where the text tells it,
 * and 1 where the machine text itself is refused.
 */
uint32_t acpiroute_why(const uint8_t *options, size_t options_length, const uint8_t *machine, size_t machine_length,
                       uint8_t *text, size_t text_capacity, uint8_t *line, size_t line_capacity,
                       struct acpiroute_reply *reply);

/* Which address space an access is in. */
enum {
    /* Memory: `address` is a physical address. */
    ACPIROUTE_MEMORY = 0,
    /* I/O ports: `address` is a port. */
    ACPIROUTE_IO = 1,
    /* The configuration space of a PCI function: `address` is a register of it, and segment to function say of which. */
    ACPIROUTE_PCI = 2
};

/* What an access does. */
enum { ACPIROUTE_READ = 0, ACPIROUTE_WRITE = 1 };

/* How an access was answered. */
enum {
    /* It was made. Of a read, `value` is what was read. */
    ACPIROUTE_ANSWERED = 0,
    /* No register stands there. */
    ACPIROUTE_NO_REGISTER = 1,
    /* The device did not answer. */
    ACPIROUTE_DEVICE_FAILED = 2
};

/*
 * An access of a register. One that is wanted has the answer ACPIROUTE_ANSWERED, and the value 0 if it is a read. The caller makes it,
 * puts the value that was read into `value` and how it was answered into `answer`, and changes nothing else of it in the record.
 *
 * A value that was read has to fit the width, and a port or a register is below 65,536; else the call answers
 * ACPIROUTE_MALFORMED.
 */
struct acpiroute_access {
    uint64_t address;
    /* The value that is written, or the one that was read. */
    uint64_t value;
    /* Of a PCI function; else 0. */
    uint16_t segment;
    uint8_t bus;
    uint8_t device;
    uint8_t function;
    uint8_t space;
    /* How many bits it takes: 8, 16, 32 or 64. It is to be made as one access of this width. */
    uint8_t width;
    uint8_t kind;
    uint8_t answer;
};

/* An access that is wanted, and where in the record. */
struct acpiroute_wanted {
    struct acpiroute_access access;
    /* The entry of the record at which the call stopped, counted from 0; `record_length`, where the record is of this run. */
    size_t entry;
};

/*
 * Which interrupt controllers the machine is told that it uses, and the profile in which its AML is evaluated: the core profile, and
 * where ACPIROUTE_WIDE is added the wide one, as with the option `--profile wide`. These calls write no lines "passed R P": what the
 * wide profile passed over in loading and initializing is not told.
 */
enum { ACPIROUTE_PIC = 0, ACPIROUTE_APIC = 1, ACPIROUTE_WIDE = 2 };

/* How a machine is configured. Each number counts, so set all of them; those that an initializer leaves out are 0. */
struct acpiroute_settings {
    /* The budget of steps for each table and each evaluation, from 1 to 1,000,000,000. */
    uint64_t steps;
    /* ACPIROUTE_PIC or ACPIROUTE_APIC; for the wide profile with `| ACPIROUTE_WIDE`. */
    uint8_t mode;
    /* 1 where no link is to be set, and else 0. */
    uint8_t dry;
    /* 1 where the report is to have the lines for a kernel, as with the option `--kernel`, and else 0. */
    uint8_t kernel;
    /*
     * How many calls may be made one inside another, as with the option `--calls`: 1 to 32, and 0 for 32. A call is a control method,
     * `_OSI`, or an evaluation of `_SEG`, `_BBN` or `_ADR`, so give at least 2. With fewer than 32, a deeper call is refused by number 144;
     * with 32, by number 71.
     */
    uint8_t calls;
    /*
     * How many terms may be one inside another in a table or in the body of a control method, as with the option `--levels`: 1 to 64, and
     * 0 for 64. With fewer than 64, a deeper term is refused by number 144; with 64, by number 33.
     */
    uint8_t levels;
};

/*
 * Chooses interrupts for the links of a machine, none of those to avoid, sets the links in its registers, and writes the report.
 *
 * Of the machine text only the tables in its memory are read, and the texts of `_OSI`: its registers are passed over. Each access of a
 * register is answered from the record, in order, from the first of its entries on; accesses of memory that tables ask for are among
 * them. From the first access that the record does not hold, no entry counts any more: the run goes on to its end with each further access
 * refused, which changes nothing outside of the call, and the call answers ACPIROUTE_WANTED with that first access. So a caller
 *
 *  1. calls with an empty record;
 *  2. makes the access that is wanted, appends it with its answer to the record, and calls again, with all else as before, unless
 *     `wanted->entry` says that the record is not of this run;
 *  3. goes on so until the call answers something else. Where that is ACPIROUTE_REPLIED, the status says how the run came out: 0 no link
 *     refused its setting (a link without `_SRS` isn't set, and none is where `dry` is 1), 3 one did, as the text says, 1 the machine
 *     is refused, for the reason in the line.
 *
 * A record that grew in this way is of this run, as long as all else that is handed in, and its entries, are as they were. Each call
 * tells in `wanted->entry` at which entry it stopped. At `record_length` the access that is wanted is the next one after those of the
 * record. Where it is less, the entry there is of another access than the one that is wanted: the record is not of this run (other
 * settings, another text, or an entry that was changed). Then make no access, and begin anew with an empty record. What a call can't
 * see is an answer that was changed and asks for no other access, and entries behind the end of a run that comes to a reply.
 *
 * That a run ends in all cases is not proved: registers may answer so that its steps run out (70), and one step may make many
 * accesses. A caller sets a limit of its own to the length of its record.
 *
 * Where `kernel` is 1, lines `trigger` and `bus` stand behind all others of the report. Once the links are set, each device with a
 * `_PRT` is asked for its bus, which may want accesses of its own; so a record is of runs with the same `kernel`.
 *
 * The record is read anew by each call, and keeps to the order in which accesses were made. Between two accesses the caller may do
 * what it likes, but nothing else is to change the registers that the tables use. After ACPIROUTE_TOO_SMALL, ACPIROUTE_NO_MEMORY or
 * the line `refused 99` the same call may be made again: no access is lost.
 */
uint32_t acpiroute_configure(const struct acpiroute_settings *settings, const uint32_t *avoid, size_t avoid_length,
                             const uint8_t *machine, size_t machine_length, const struct acpiroute_access *record,
                             size_t record_length, uint8_t *text, size_t text_capacity, uint8_t *line, size_t line_capacity,
                             struct acpiroute_reply *reply, struct acpiroute_wanted *wanted);

/*
 * Evaluates an object of a machine: the tables are loaded, the machine is initialized, and the object at a path, such as
 * "\\_SB_.PCI0._BBN" with no zero byte at the end, is read or called with integers. The text is the value as `eval` writes it,
 * such as "integer 128", and a line feed. `dry` and `kernel` of the settings are 0 or 1, and count for nothing.
 *
 * The record is one of its own: begin with an empty one for each object. All else is as with `acpiroute_configure`. Loading the tables
 * and initializing, which calls `\_INI`, `\_SB_._INI` and `\_PIC`, may write to registers, once more for each object; the machine is
 * not configured any further.
 */
uint32_t acpiroute_evaluate(const struct acpiroute_settings *settings, const uint8_t *path, size_t path_length,
                            const uint64_t *arguments, size_t arguments_length, const uint8_t *machine, size_t machine_length,
                            const struct acpiroute_access *record, size_t record_length, uint8_t *text, size_t text_capacity,
                            uint8_t *line, size_t line_capacity, struct acpiroute_reply *reply, struct acpiroute_wanted *wanted);

/* A part of the machine's memory in which tables stand. */
struct acpiroute_part {
    /* The physical address of its first byte. */
    uint64_t address;
    /* Its bytes, wherever they can be read. */
    const uint8_t *bytes;
    size_t length;
};

/*
 * `acpiroute_configure` and `acpiroute_evaluate` over the tables as they stand in memory: no machine text is made or read. `rsdp` is
 * the physical address of the Root System Description Pointer. It, the RSDT or XSDT, and FADT, DSDT, MADT and SSDTs are needed whole; of
 * each other table that is listed its first four bytes, the signature. The parts may be in any order; where two have a byte of one
 * address, that of the later one counts. `osi` has the texts that `_OSI` knows, parted by single line feeds, such as
 * "Windows 2012\nWindows 2015"; where its length is 0 there is none, and `_OSI` says no to each. In all else these are the calls over a
 * machine text, and a record of the one kind is one of the other.
 */
uint32_t acpiroute_configure_tables(const struct acpiroute_settings *settings, const uint32_t *avoid, size_t avoid_length, uint64_t rsdp,
                                    const struct acpiroute_part *parts, size_t parts_length, const uint8_t *osi, size_t osi_length,
                                    const struct acpiroute_access *record, size_t record_length, uint8_t *text, size_t text_capacity, uint8_t *line, size_t line_capacity,
                                    struct acpiroute_reply *reply, struct acpiroute_wanted *wanted);

uint32_t acpiroute_evaluate_tables(const struct acpiroute_settings *settings, const uint8_t *path, size_t path_length,
                                   const uint64_t *arguments, size_t arguments_length, uint64_t rsdp, const struct acpiroute_part *parts,
                                   size_t parts_length, const uint8_t *osi, size_t osi_length, const struct acpiroute_access *record, size_t record_length, uint8_t *text,
                                   size_t text_capacity, uint8_t *line, size_t line_capacity, struct acpiroute_reply *reply,
                                   struct acpiroute_wanted *wanted);

/*
 * A pin of a PCI device, with the interrupt that its link was given or that it is wired to, as an interrupt controller is programmed for
 * it. Elements of one interrupt may differ in `low` or `level`, where the tables contradict themselves: links are compared with one
 * another, and not with wired pins.
 */
struct acpiroute_pin {
    /* Its interrupt: of 8259 controllers their line, of I/O APICs the global system interrupt. */
    uint32_t interrupt;
    /* The segment group and the bus of its device; 0 where `has_bus` is 0. */
    uint16_t segment;
    /* The number of its device on that bus, as the `_PRT` has it: a device of PCI is below 32. */
    uint16_t device;
    uint8_t bus;
    /* 0 for A, 1 for B, 2 for C, 3 for D. */
    uint8_t pin;
    /* 1 where it is triggered by a level, 0 by an edge. */
    uint8_t level;
    /* 1 where it is active low, 0 active high. */
    uint8_t low;
    /*
     * 1 where the bus is known, 0 where the line `bus` of its `_PRT` says that it is refused. In the core profile that is so of every
     * PCI-to-PCI bridge with a `_PRT`. Such a pin isn't one of the bridge above: ask in the wide profile, or don't use the device.
     */
    uint8_t has_bus;
    /*
     * 1 where the pin is wired, or where its link is set to the interrupt as far as the link tells: it reads back just this one, or it
     * has no `_CRS` and took its setting. 0 where it has no `_SRS`, refused its setting, or reads back something else, and where `dry`
     * is 1: then another interrupt may come.
     */
    uint8_t is_set;
};

/* The System Control Interrupt, which power management events raise. */
struct acpiroute_sci {
    /* Its interrupt, counted as those of pins are; 0 where the machine has none. */
    uint32_t interrupt;
    /* 1 where it is triggered by a level, 0 by an edge, or where there is none. */
    uint8_t level;
    /* 1 where it is active low, 0 active high, or where there is none. */
    uint8_t low;
    /* 1 where the machine has one. */
    uint8_t is_known;
};

/* What a call for pins has said. */
struct acpiroute_pins_reply {
    /* How many pins there are; 0 after a refusal. They are at the start of the array `pins`. */
    size_t pins_length;
    /* How many bytes the line has, as in `struct acpiroute_reply`. */
    size_t line_length;
    /* The System Control Interrupt; after a refusal none is known. */
    struct acpiroute_sci sci;
    /* 0 no link refused its setting, 3 one did (`is_set` tells whose pins those are), 1 the machine is refused. */
    uint8_t status;
};

/*
 * `acpiroute_configure` and `acpiroute_configure_tables` with the routing as plain numbers in place of a text: for each line `pin` of the
 * report whose interrupt is known there is one element of `pins`, in the order of these lines, and `reply` has the System Control
 * Interrupt. `pins_capacity` is how many elements the array has; where it or the buffer of the line is too short, the call answers
 * ACPIROUTE_TOO_SMALL, `reply` has both lengths, the SCI and the status also then, and array and buffer are as they were. 4,096 elements
 * are enough. I/O APICs are not among these numbers: the lines `ioapic` of the text have them, and so has the MADT. The report has the
 * lines for a kernel in any case: `kernel` of the settings is 0 or 1, and counts for nothing. So a record of these calls is one of the
 * calls above where `kernel` is 1. A pin whose link isn't present has no element.
 */
uint32_t acpiroute_configure_pins(const struct acpiroute_settings *settings, const uint32_t *avoid, size_t avoid_length,
                                  const uint8_t *machine, size_t machine_length, const struct acpiroute_access *record,
                                  size_t record_length, struct acpiroute_pin *pins, size_t pins_capacity, uint8_t *line,
                                  size_t line_capacity, struct acpiroute_pins_reply *reply, struct acpiroute_wanted *wanted);

uint32_t acpiroute_configure_tables_pins(const struct acpiroute_settings *settings, const uint32_t *avoid, size_t avoid_length, uint64_t rsdp,
                                         const struct acpiroute_part *parts, size_t parts_length, const uint8_t *osi, size_t osi_length,
                                         const struct acpiroute_access *record, size_t record_length, struct acpiroute_pin *pins,
                                         size_t pins_capacity, uint8_t *line, size_t line_capacity,
                                         struct acpiroute_pins_reply *reply, struct acpiroute_wanted *wanted);

#ifdef __cplusplus
}
#endif

#endif
