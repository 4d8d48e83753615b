#include "bytes.h"

#include <stdio.h>
#include <stdlib.h>

void stop(const char *why) {
    fprintf(stderr, "host: %s\n", why);
    exit(98);
}

struct bytes room(size_t length) {
    struct bytes made = {malloc(length > 0 ? length : 1), length};
    if (made.at == NULL)
        stop("out of memory");
    return made;
}

struct bytes read_file(const char *name) {
    FILE *file = fopen(name, "rb");
    long size;
    if (file == NULL || fseek(file, 0, SEEK_END) != 0 || (size = ftell(file)) < 0 || fseek(file, 0, SEEK_SET) != 0)
        stop("the machine text can't be read");
    struct bytes whole = room((size_t)size);
    if (fread(whole.at, 1, whole.length, file) != whole.length)
        stop("the machine text can't be read");
    fclose(file);
    return whole;
}
