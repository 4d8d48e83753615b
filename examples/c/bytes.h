/* Bytes of a host's own. */
#ifndef BYTES_H
#define BYTES_H

#include <stddef.h>
#include <stdint.h>

struct bytes {
    uint8_t *at;
    size_t length;
};

/* Ends the program with the status 98. */
void stop(const char *why);

/* Room for bytes; it is never NULL, also where there are none. */
struct bytes room(size_t length);

/* The whole file. */
struct bytes read_file(const char *name);

#endif
