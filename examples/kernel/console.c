/* Lines on the first serial port. */
#include <stdarg.h>

#include "kernel.h"

static void put(char byte) {
    while (!(in8(0x3FD) & 0x20))
        ;
    out8(0x3F8, (uint8_t)byte);
}

static void put_number(uint64_t value, unsigned base) {
    char digits[20];
    int count = 0;
    do {
        digits[count++] = "0123456789ABCDEF"[value % base];
        value /= base;
    } while (value > 0);
    while (count > 0)
        put(digits[--count]);
}

void say(const char *form, ...) {
    va_list values;
    va_start(values, form);
    for (; *form; form++) {
        if (*form != '%') {
            put(*form);
        } else if (*++form == 's') {
            for (const char *text = va_arg(values, const char *); *text; text++)
                put(*text);
        } else {
            put_number(va_arg(values, uint64_t), *form == 'u' ? 10 : 16);
        }
    }
    va_end(values);
    put('\n');
}

void say_bytes(const uint8_t *at, size_t length) {
    for (size_t i = 0; i < length; i++)
        put((char)at[i]);
}

_Noreturn void leave(int is_good) {
    say("verdict %s", is_good ? "good" : "bad");
    out8(0xF4, is_good ? 0x10 : 0x11);
    for (;;)
        __asm__ volatile("cli; hlt");
}

_Noreturn void stop(const char *why) {
    say("stopped: %s", why);
    leave(0);
}
