/*
 * sky.h - the C interface of sky, a tile scheduler for planetariums.
 *
 * A job is one tile to be drawn. It has a name, a release (the first tick in
 * which it may be drawn), a cost (how many ticks that takes) and a deadline
 * (the tick before which it must be done). Jobs travel as bytes; every number
 * in them is unsigned and has its highest byte first.
 *
 * Row, 14 bytes:  name (2), release (4), cost (4), deadline (4)
 *
 * List image:     count of the bytes after this field (4), which is 3 + 14 n;
 *                 version (1), which is 1; number of rows n (2); the n rows
 *
 * Of n rows, 0 to 64, each has a name from 1 to 65535 that no other row has,
 * a cost of 1 or more, a deadline of 1000000 or less, at least as many ticks
 * from release to deadline as it costs, and a release no earlier than that of
 * the row before.
 *
 * Every function is complete in itself: nothing is kept from call to call.
 * A pointer must be valid for the length that follows it, also when that is
 * 0, and the two buffers of one call must not overlap. Bytes passed as const
 * are never changed.
 */
#ifndef SKY_H
#define SKY_H

#include <stddef.h>
#include <stdint.h>

#ifdef __cplusplus
extern "C" {
#endif

/* Sizes in bytes, except for the first. */
#define SKY_MAX_ROWS 64
#define SKY_ROW_SIZE 14
#define SKY_LIST_SIZE(n) (7 + 14 * (n)) /* list image of n rows */
#define SKY_ROWS_MAX 896                /* 64 raw rows */
#define SKY_LIST_MAX 903                /* list image of 64 rows */

/*
 * The number of an answer: SKY_OK, or why the call was refused. The tests are
 * made in the order of these numbers: the head of the image first, then row
 * after row (all row tests on one row before the next row), the buffer last.
 * The first test that fails gives the answer.
 */
enum sky_refusal {
    SKY_OK = 0,            /* accepted */
    SKY_TOO_SHORT = 1,     /* fewer than 7 bytes */
    SKY_BAD_LENGTH = 2,    /* first field is not the count of bytes after it */
    SKY_BAD_VERSION = 3,   /* version is not 1 */
    SKY_TOO_MANY_ROWS = 4, /* more than 64 rows */
    SKY_BAD_ROW_COUNT = 5, /* first field is not 3 + 14 n; for sky_write:
                              bytes are left over after whole rows */
    SKY_NAME_ZERO = 6,     /* name 0 */
    SKY_NAME_TWICE = 7,    /* an earlier row has this name */
    SKY_COST_ZERO = 8,     /* cost 0 */
    SKY_DEADLINE_HIGH = 9, /* deadline above 1000000 */
    SKY_NO_TIME = 10,      /* fewer ticks from release to deadline than the
                              cost, or deadline before release */
    SKY_RELEASE_FALLS = 11, /* release earlier than the row before's */
    SKY_BUFFER_SHORT = 12   /* the buffer to be written is too short */
};

/* The groups of refusals for a host's log: see sky_kind. */
enum sky_refusal_kind {
    SKY_KIND_NONE = 0,  /* SKY_OK, and every number above 12 */
    SKY_KIND_IMAGE = 1, /* numbers 1 to 5: the image does not hold together */
    SKY_KIND_ROW = 2,   /* numbers 6 to 11: a row breaks a rule */
    SKY_KIND_ROOM = 3   /* number 12: the buffer is too short */
};

/*
 * An answer is one 64-bit number; these four take it apart.
 *
 *   number  SKY_OK or the refusal
 *   row     for refusals 6 to 11 the row at fault, counted from 1; else 0
 *   size    bytes written; 0 for a refusal and for sky_check
 *   value   for an accepted run its value; else 0
 *
 * After a refusal every byte of the caller's buffers is what it was before.
 */
static inline uint8_t sky_number(uint64_t answer)
{
    return (uint8_t)(answer >> 56);
}

static inline uint16_t sky_row(uint64_t answer)
{
    return (uint16_t)((answer >> 40) & 0xFFFF);
}

static inline uint16_t sky_size(uint64_t answer)
{
    return (uint16_t)((answer >> 24) & 0xFFFF);
}

static inline uint32_t sky_value(uint64_t answer)
{
    return (uint32_t)(answer & 0xFFFFFF);
}

/*
 * Checks a list image and writes nothing.
 * Refusals: 1 to 11.
 */
uint64_t sky_check(const uint8_t *list, size_t list_len);

/*
 * Gives the rows of a list image back, 14 bytes each with nothing before
 * them. An accepted call writes the first 14 n bytes of rows and leaves the
 * rest of that buffer as it was. SKY_ROWS_MAX bytes are enough for any list.
 * Refusals: 1 to 11, and 12 if rows_len is less than 14 n.
 */
uint64_t sky_read(const uint8_t *list, size_t list_len,
                  uint8_t *rows, size_t rows_len);

/*
 * Makes a list image of rows, 14 bytes each with nothing before them; their
 * number n is rows_len / 14, rounded down. An accepted call writes the first
 * SKY_LIST_SIZE(n) bytes of list and leaves the rest of that buffer as it was.
 * Writing what sky_read gave makes the image again, and the other way round.
 * Refusals: 4 to 11, and 12 if list_len is less than SKY_LIST_SIZE(n). There
 * is no image yet that could be refused by 1 to 3.
 */
uint64_t sky_write(const uint8_t *rows, size_t rows_len,
                   uint8_t *list, size_t list_len);

/* The kind of a refusal number, one of enum sky_refusal_kind. */
uint8_t sky_kind(uint8_t number);

#ifdef __cplusplus
}
#endif

#endif
