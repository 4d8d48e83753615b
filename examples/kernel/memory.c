/*
 * An allocator of size classes: each block has 16 bytes before it and room for a power of two, and blocks that were given back wait in a
 * list of their class. A call of the library makes some thousands of allocations, so a list that is searched would cost much.
 */
#include "kernel.h"

struct block { size_t size; struct block *next; };

struct memory_use memory_use;
static struct block *waiting[48];
static uint8_t *memory_next, *memory_end;

void memory_over(uint8_t *start, uint8_t *end) {
    memory_next = start;
    memory_end = end;
}

static unsigned class_of(size_t size) {
    unsigned class = 4;
    while (class < 47 && ((size_t)1 << class) < size)
        class++;
    return class;
}

/* Memory that is aligned to 16 bytes, or NULL. */
static void *allocate(size_t size) {
    unsigned class = class_of(size);
    struct block *it = waiting[class];
    if (it) {
        waiting[class] = it->next;
    } else {
        size_t whole = sizeof *it + ((size_t)1 << class);
        if (whole > (size_t)(memory_end - memory_next))
            return NULL;
        it = (struct block *)memory_next;
        memory_next += whole;
    }
    it->size = size;
    memory_use.allocations++, memory_use.blocks++;
    memory_use.bytes += size;
    if (memory_use.bytes > memory_use.most_bytes)
        memory_use.most_bytes = memory_use.bytes;
    return it + 1;
}

static void give_back(void *at) {
    struct block *it = (struct block *)at - 1;
    unsigned class = class_of(it->size);
    memory_use.blocks--;
    memory_use.bytes -= it->size;
    it->next = waiting[class];
    waiting[class] = it;
}

/* What the library calls. */

static uint8_t nothing;

static struct acpiroute_block block_at(void *at) {
    return (struct acpiroute_block){at != NULL, at ? at : &nothing};
}

struct acpiroute_block rattle_alloc(size_t size, size_t alignment) {
    (void)alignment;
    return block_at(allocate(size));
}

struct acpiroute_block rattle_realloc(void *block, size_t kept, size_t size, size_t alignment) {
    (void)alignment;
    void *made = allocate(size);
    if (made) {
        memcpy(made, block, kept);
        give_back(block);
    }
    return block_at(made);
}

void rattle_dealloc(void *block) {
    give_back(block);
}

void *memcpy(void *to, const void *from, size_t length) {
    void *start = to;
    __asm__ volatile("rep movsb" : "+D"(to), "+S"(from), "+c"(length) : : "memory");
    return start;
}

void *memmove(void *to, const void *from, size_t length) {
    uint8_t *left = to;
    const uint8_t *right = from;
    if (left <= right || left >= right + length)
        return memcpy(to, from, length);
    while (length-- > 0)
        ((volatile uint8_t *)left)[length] = right[length];
    return to;
}

void *memset(void *to, int byte, size_t length) {
    void *start = to;
    __asm__ volatile("rep stosb" : "+D"(to), "+c"(length) : "a"(byte) : "memory");
    return start;
}

int is_same(const void *left, const void *right, size_t length) {
    const uint8_t *one = left, *other = right;
    for (size_t i = 0; i < length; i++)
        if (one[i] != other[i])
            return 0;
    return 1;
}

int is_same_text(const char *left, const char *right) {
    size_t length = length_of(left);
    return length == length_of(right) && is_same(left, right, length);
}

size_t length_of(const char *text) {
    size_t length = 0;
    while (text[length])
        length++;
    return length;
}
