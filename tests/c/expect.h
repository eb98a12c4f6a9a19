/*
 * What the C tests share: bytes from hexadecimal, a buffer between guard
 * bytes, and checks that stop at the first failure with one clear line.
 */
#ifndef EXPECT_H
#define EXPECT_H

#include <stdio.h>
#include <stdlib.h>
#include <string.h>

#include "sky.h"

#define LENT_MAX 4096
#define GUARD 32

/* The case under test, named in a failure. */
static const char *now_testing = "start";

static void require(int holds, const char *what)
{
    if (!holds) {
        fprintf(stderr, "FAILED: %s: %s\n", now_testing, what);
        exit(1);
    }
}

/* Spaces are skipped; gives the count of bytes. */
static size_t from_hex(const char *hex, uint8_t *bytes)
{
    size_t count = 0;
    unsigned byte;
    while (*hex != '\0') {
        if (*hex == ' ') {
            hex++;
            continue;
        }
        require(sscanf(hex, "%2x", &byte) == 1, "bad hexadecimal in the test");
        bytes[count++] = (uint8_t)byte;
        hex += 2;
    }
    return count;
}

static void require_answer(uint64_t answer, unsigned number, unsigned row,
                           unsigned size, unsigned value)
{
    if (sky_number(answer) != number || sky_row(answer) != row ||
        sky_size(answer) != size || sky_value(answer) != value) {
        fprintf(stderr,
                "FAILED: %s: number %u row %u size %u value %u"
                " instead of %u %u %u %u\n",
                now_testing, (unsigned)sky_number(answer),
                (unsigned)sky_row(answer), (unsigned)sky_size(answer),
                (unsigned)sky_value(answer), number, row, size, value);
        exit(1);
    }
}

/* A buffer to lend, with the guards around it. */
struct lent {
    uint8_t all[GUARD + LENT_MAX + GUARD];
};

/* No two neighbours alike, so that a shifted byte is seen too. */
static uint8_t pattern(size_t place)
{
    return (uint8_t)(place * 37 + (place >> 8) + 11);
}

static uint8_t *lend(struct lent *lent)
{
    size_t place;
    for (place = 0; place < sizeof lent->all; place++)
        lent->all[place] = pattern(place);
    return lent->all + GUARD;
}

/* The bytes stand at the front, and every other byte is what it was. */
static void require_written(const struct lent *lent, const uint8_t *bytes,
                            size_t count)
{
    size_t place;
    require(memcmp(lent->all + GUARD, bytes, count) == 0, "wrong bytes written");
    for (place = 0; place < sizeof lent->all; place++)
        if (place < GUARD || place >= GUARD + count)
            require(lent->all[place] == pattern(place),
                    "changed a byte that keeps what it held");
}

#endif
