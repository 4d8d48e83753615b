/*
 * What the libraries of acpiroute take memory from: three functions, which the program that links such a library defines. The
 * kit's c/liblibc_c.a, and a release's lib/libacpiroute.a, define them over a C library's `malloc`, `realloc` and `free`; a
 * kernel defines them over an allocator of its own, and needs no C library.
 *
 * They are called in the call's own context, on its stack, and by no other. All memory is given back before the call returns.
 */
#ifndef ACPIROUTE_MEMORY_H
#define ACPIROUTE_MEMORY_H

#include <stddef.h>
#include <stdint.h>

#ifdef __cplusplus
extern "C" {
#endif

/* Memory that was asked for. */
struct acpiroute_block {
    /* 1 where there is memory, and 0 where there is none. */
    uint64_t is_there;
    /* Where it is; where there is none, any address but NULL. */
    void *at;
};

/*
 * Memory of `size` bytes, which is 0 at times and below 2^63; `at` isn't NULL in any case. `alignment` is 1, 2, 4, 8 or 16, so an
 * allocator that aligns all blocks to 16 bytes may ignore it. The memory need not be cleared.
 */
struct acpiroute_block rattle_alloc(size_t size, size_t alignment);

/*
 * The same memory with `size` bytes, here or at another place. The first `kept` bytes are as they were; there are no more than
 * that, and no more than `size`. Where there is no memory, the old block stays as it is, and stays allocated.
 */
struct acpiroute_block rattle_realloc(void *block, size_t kept, size_t size, size_t alignment);

/* Gives memory back. */
void rattle_dealloc(void *block);

#ifdef __cplusplus
}
#endif

#endif
