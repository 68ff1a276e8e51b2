/* What is lent to the functions: arrays between numbers that nobody may write, and bytes, null where there are none; and how they are
 * told. */
#ifndef LENT_H
#define LENT_H

#include "constants.h"

/* An array of the headers' length between numbers that nobody may write. */
#define GUARD 0x5AFE5AFE5AFE5AFEu
#define UNWRITTEN 0xDEADDEADDEADDEADu
#define GUARDED(name, length) static struct { uint64_t before, is[length], after; } name
#define SET(name) (name.before = name.after = GUARD)
#define KEPT(name) (name.before == GUARD && name.after == GUARD)
#define COUNT(array) (sizeof(array) / sizeof((array)[0]))
#define CLEAR(array) clear(array, COUNT(array))

static void clear(uint64_t *array, size_t count) {
    while (count) array[--count] = UNWRITTEN;
}

typedef struct {
    uint8_t *is; /* null where there are none */
    size_t length;
} bytes;

static bytes many(size_t length, int byte) {
    bytes made = {NULL, length};
    if (length && !(made.is = (uint8_t *)malloc(length))) stop("no", "memory");
    if (length) memset(made.is, byte, length);
    return made;
}

/* Hexadecimal digits; none is '-'. */
static bytes in_hex(void) {
    const char *digits = word();
    bytes made = many(*digits == '-' ? 0 : strlen(digits) / 2, 0);
    for (size_t i = 0; i < made.length; i++) {
        char pair[3] = {digits[2 * i], digits[2 * i + 1], 0};
        made.is[i] = (uint8_t)strtoul(pair, NULL, 16);
    }
    return made;
}

static void tell_numbers(const uint64_t *from, size_t count) {
    for (size_t i = 0; i < count; i++) printf(",%llu", (number)from[i]);
}

static void tell_sum(const uint8_t *from, size_t length) {
    number sum = length;
    for (size_t i = 0; i < length; i++) sum = sum * 31 + from[i];
    printf(" sum=%llu", sum);
}

#endif
