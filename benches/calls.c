/*
 * What the calls of a static library cost; calls.py runs it.
 *
 *     calls configure MACHINE pic|apic    routes a machine over registers that hold what was written to them, and 0 before
 *     calls eval MACHINE [OPTIONS]        evaluates \M000, with 1,000,000,000 steps and these options, in one word
 *
 * The first prints the numbers of accesses, calls and allocations, the most bytes of memory at once, the bytes of stack, and the
 * microseconds of all calls, the least of 20 times; the second the bytes of stack, and the line of errors.
 */
#define _GNU_SOURCE
#include <inttypes.h>
#include <malloc.h>
#include <pthread.h>
#include <stdio.h>
#include <stdlib.h>
#include <string.h>
#include <sys/mman.h>
#include <time.h>

#include "../examples/c/bytes.h"
#include "acpiroute.h"
#include "acpiroute_memory.h"

/* Not in a library without SSE registers. */
extern __typeof__(acpiroute_eval) acpiroute_eval __attribute__((weak));

static uint64_t allocations, bytes, most_bytes;
static uint8_t nothing;

static struct acpiroute_block counted(void *at) {
    if (at == NULL)
        return (struct acpiroute_block){0, &nothing};
    allocations++;
    bytes += malloc_usable_size(at);
    most_bytes = bytes > most_bytes ? bytes : most_bytes;
    return (struct acpiroute_block){1, at};
}

struct acpiroute_block rattle_alloc(size_t size, size_t alignment) {
    return counted(malloc(size > 0 ? size : alignment));
}

struct acpiroute_block rattle_realloc(void *block, size_t kept, size_t size, size_t alignment) {
    (void)kept;
    size_t before = malloc_usable_size(block);
    void *at = realloc(block, size > 0 ? size : alignment);
    bytes -= at != NULL ? before : 0;
    return counted(at);
}

void rattle_dealloc(void *block) {
    bytes -= malloc_usable_size(block);
    free(block);
}

/* Registers of one byte, which hold what was written to them. */
static struct { uint64_t key; uint8_t value; } registers[65536];
static size_t register_count;

static uint8_t *register_at(const struct acpiroute_access *access, uint64_t offset) {
    uint64_t function = (uint64_t)access->bus << 16 | (uint64_t)access->device << 8 | access->function;
    uint64_t key = (uint64_t)access->space << 62 | function << 38 | (access->address + offset);
    size_t i = 0;
    while (i < register_count && registers[i].key != key)
        i++;
    if (i == register_count) {
        if (register_count == sizeof registers / sizeof *registers)
            stop("too many registers");
        registers[register_count++].key = key;
    }
    return &registers[i].value;
}

static void make_access(struct acpiroute_access *access) {
    access->value = access->kind == ACPIROUTE_READ ? 0 : access->value;
    for (uint64_t i = 0; i < access->width / 8u; i++) {
        uint8_t *it = register_at(access, i);
        if (access->kind == ACPIROUTE_READ)
            access->value |= (uint64_t)*it << 8 * i;
        else
            *it = (uint8_t)(access->value >> 8 * i);
    }
}

static const char *const *words;
static struct bytes machine;
static uint8_t text[1 << 20], line[1 << 16];
static struct acpiroute_access record[4096];
static struct acpiroute_reply reply;

static uint32_t configure(size_t length, struct acpiroute_wanted *wanted) {
    struct acpiroute_settings settings = {1000000, strcmp(words[3], "pic") == 0 ? ACPIROUTE_PIC : ACPIROUTE_APIC, 0, 0, 0, 0};
    uint32_t no_avoid = 0;
    return acpiroute_configure(&settings, &no_avoid, 0, machine.at, machine.length, record, length, text, sizeof text, line, sizeof line,
                               &reply, wanted);
}

static uint64_t microseconds(void) {
    struct timespec now;
    clock_gettime(CLOCK_PROCESS_CPUTIME_ID, &now);
    return (uint64_t)now.tv_sec * 1000000 + (uint64_t)now.tv_nsec / 1000;
}

/* Fills the stack with a pattern, and finds how much of it was written. */
static uint8_t *stack;
enum { STACK = 64 << 20, PATTERN = 0xA5 };

static uint64_t stack_used(const uint8_t *top) {
    const uint8_t *at = stack;
    while (*at == PATTERN)
        at++;
    return (uint64_t)(top - at);
}

static void *measure(void *unused) {
    uint8_t *top = __builtin_frame_address(0);
    struct acpiroute_wanted wanted;
    size_t length = 0;
    (void)unused;
    if (strcmp(words[1], "eval") == 0) {
        const char *more = words[3] != NULL ? words[3] : "";
        char options[256];
        snprintf(options, sizeof options, "--steps 1000000000 %s%s\\M000", more, *more != '\0' ? " " : "");
        acpiroute_eval((const uint8_t *)options, strlen(options), machine.at, machine.length, text, sizeof text, line, sizeof line, &reply);
        printf("%" PRIu64 " ", stack_used(top));
        fwrite(line, 1, reply.line_length, stdout);
        return NULL;
    }
    while (configure(length, &wanted) == ACPIROUTE_WANTED && length < sizeof record / sizeof *record) {
        make_access(&wanted.access);
        record[length++] = wanted.access;
    }
    uint64_t made = allocations, least = UINT64_MAX, deepest = stack_used(top);
    for (int turn = 0; turn < 20; turn++) {
        uint64_t start = microseconds();
        for (size_t i = 0; i <= length; i++)
            configure(i, &wanted);
        uint64_t took = microseconds() - start;
        least = took < least ? took : least;
    }
    printf("%zu %zu %" PRIu64 " %" PRIu64 " %" PRIu64 " %" PRIu64 " %.*s\n", length, length + 1, made, most_bytes, deepest, least,
           (int)reply.line_length, line);
    return NULL;
}

int main(int count, char **given) {
    pthread_t thread;
    pthread_attr_t attributes;
    if (count < 3)
        stop("a machine text is wanted");
    words = (const char *const *)given;
    machine = read_file(given[2]);
    stack = mmap(NULL, STACK, PROT_READ | PROT_WRITE, MAP_PRIVATE | MAP_ANONYMOUS, -1, 0);
    if (stack == MAP_FAILED)
        stop("no stack");
    memset(stack, PATTERN, STACK);
    pthread_attr_init(&attributes);
    pthread_attr_setstack(&attributes, stack, STACK);
    if (pthread_create(&thread, &attributes, measure, NULL) != 0 || pthread_join(thread, NULL) != 0)
        stop("no thread");
    return 0;
}
