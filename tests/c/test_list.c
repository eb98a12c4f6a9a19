/*
 * sky_check, sky_read, sky_write and sky_kind as a C host calls them.
 * Prints one line and ends with 0 if all is well.
 */
#include "expect.h"

#define HEAD1 "00000011 01 0001"
#define HEAD2 "0000001F 01 0002"
#define HEAD3 "0000002D 01 0003"
#define ROW1 " 0001 00000000 00000004 0000000A"
#define ROW2 " 0002 00000001 00000002 00000005"

struct refusal {
    const char *name;
    unsigned number, row;
    const char *list;
};

/* Each is accepted (number 0) or refused by its number and row. */
static const struct refusal lists[] = {
    {"empty list", 0, 0, "00000003 01 0000"},
    {"two rows", 0, 0, HEAD2 ROW1 ROW2},
    {"equal releases", 0, 0, HEAD2 ROW1 " 0002 00000000 00000002 00000005"},
    {"least job", 0, 0, HEAD1 " 0001 00000000 00000001 00000001"},
    {"last deadline", 0, 0, HEAD1 " FFFF 00000000 000F4240 000F4240"},
    {"names alike in a byte", 0, 0, HEAD2 ROW1 " 0101 00000001 00000001 00000005"},
    {"no bytes", 1, 0, ""},
    {"six bytes", 1, 0, "00000002 01 00"},
    {"first field too small", 2, 0, "00000002 01 0000"},
    {"first field too great", 2, 0, "01000003 01 0000"},
    {"a byte left over", 2, 0, "00000003 01 0000 00"},
    {"version 2", 3, 0, "00000003 02 0000"},
    {"version before rows", 3, 0, "00000003 00 0041"},
    {"65 rows", 4, 0, "00000003 01 0041"},
    {"256 rows", 4, 0, "00000003 01 0100"},
    {"row missing", 5, 0, "00000003 01 0001"},
    {"byte more than rows", 5, 0, "00000004 01 0000 00"},
    {"name 0", 6, 1, HEAD1 " 0000 00000000 00000004 0000000A"},
    {"name twice", 7, 2, HEAD2 ROW1 ROW1},
    {"name twice, apart", 7, 3, HEAD3 ROW1 ROW2 ROW1},
    {"cost 0", 8, 2, HEAD2 ROW1 " 0002 00000001 00000000 00000005"},
    {"deadline 1000001", 9, 1, HEAD1 " 0001 00000000 00000001 000F4241"},
    {"deadline 0", 10, 1, HEAD1 " 0001 00000000 00000001 00000000"},
    {"no time", 10, 2, HEAD2 ROW1 " 0002 00000001 00000005 00000005"},
    {"release near 2^32", 10, 1, HEAD1 " 0001 FFFFFFFF 00000002 00000001"},
    {"cost near 2^32", 10, 1, HEAD1 " 0001 00000001 FFFFFFFF 00000000"},
    {"release falls", 11, 2, HEAD2 ROW2 ROW1},
    {"all at once", 6, 2, HEAD2 ROW2 " 0000 00000000 00000000 FFFFFFFF"},
};

/* n rows named 1 to n, release 0, cost 1, deadline 1, under a fitting head. */
static size_t plain_list(unsigned n, uint8_t *list)
{
    size_t after = 3 + (size_t)SKY_ROW_SIZE * n;
    unsigned row;
    memset(list, 0, 4 + after);
    list[2] = (uint8_t)(after >> 8);
    list[3] = (uint8_t)after;
    list[4] = 1;
    list[6] = (uint8_t)n;
    for (row = 0; row < n; row++) {
        uint8_t *bytes = list + SKY_LIST_SIZE(row);
        bytes[1] = (uint8_t)(row + 1);
        bytes[9] = 1;
        bytes[13] = 1;
    }
    return 4 + after;
}

static void test_refusals(void)
{
    size_t i;
    for (i = 0; i < sizeof lists / sizeof lists[0]; i++) {
        const struct refusal *one = &lists[i];
        uint8_t list[64], kept[64];
        struct lent rows;
        size_t len = from_hex(one->list, list);
        size_t size = one->number == SKY_OK ? len - 7 : 0;
        now_testing = one->name;
        memcpy(kept, list, len);
        require_answer(sky_check(list, len), one->number, one->row, 0, 0);
        require_answer(sky_read(list, len, lend(&rows), LENT_MAX),
                       one->number, one->row, (unsigned)size, 0);
        require_written(&rows, list + 7, size);
        require(memcmp(list, kept, len) == 0, "changed its input");
        if (one->number == SKY_OK)
            continue;
        /* Test 12 is last: a short buffer does not hide the fault. */
        require_answer(sky_read(list, len, lend(&rows), 0), one->number,
                       one->row, 0, 0);
        require_written(&rows, list, 0);
    }
}

/* The writer meets the same row faults as the reader. */
static void test_writer_refusals(void)
{
    size_t i;
    for (i = 0; i < sizeof lists / sizeof lists[0]; i++) {
        const struct refusal *one = &lists[i];
        uint8_t list[64];
        struct lent made;
        size_t len = from_hex(one->list, list);
        size_t size = one->number == SKY_OK ? len : 0;
        now_testing = one->name;
        if (sky_kind((uint8_t)one->number) == SKY_KIND_IMAGE)
            continue;
        require_answer(sky_write(list + 7, len - 7, lend(&made), LENT_MAX),
                       one->number, one->row, (unsigned)size, 0);
        require_written(&made, list, size);
        if (one->number == SKY_OK)
            continue;
        require_answer(sky_write(list + 7, len - 7, lend(&made), 0),
                       one->number, one->row, 0, 0);
        require_written(&made, list, 0);
    }
}

/* Buffers one byte short, exact, and one byte more, for 0 to 64 rows. */
static void test_buffers(void)
{
    uint8_t list[LENT_MAX];
    struct lent lent;
    unsigned n;
    now_testing = "buffers";
    for (n = 0; n <= SKY_MAX_ROWS; n++) {
        size_t len = plain_list(n, list);
        size_t size = len - 7, more;
        require_answer(sky_check(list, len), SKY_OK, 0, 0, 0);
        for (more = 0; more <= 1; more++) {
            require_answer(sky_read(list, len, lend(&lent), size + more),
                           SKY_OK, 0, (unsigned)size, 0);
            require_written(&lent, list + 7, size);
            require_answer(sky_write(list + 7, size, lend(&lent), len + more),
                           SKY_OK, 0, (unsigned)len, 0);
            require_written(&lent, list, len);
        }
        require_answer(sky_write(list + 7, size, lend(&lent), len - 1),
                       SKY_BUFFER_SHORT, 0, 0, 0);
        require_written(&lent, list, 0);
        if (n == 0)
            continue;
        require_answer(sky_read(list, len, lend(&lent), size - 1),
                       SKY_BUFFER_SHORT, 0, 0, 0);
        require_written(&lent, list, 0);
    }
}

/* 65 rows give 4 with a rest or without, 64 rows and a rest give 5. */
static void test_many_rows(void)
{
    uint8_t list[LENT_MAX] = {0};
    struct lent lent;
    size_t len = plain_list(65, list), rest;
    now_testing = "65 rows";
    require_answer(sky_check(list, len), SKY_TOO_MANY_ROWS, 0, 0, 0);
    for (rest = 0; rest < SKY_ROW_SIZE; rest++) {
        require_answer(sky_write(list + 7, len - 7 + rest, lend(&lent), 0),
                       SKY_TOO_MANY_ROWS, 0, 0, 0);
        require_written(&lent, list, 0);
    }
    now_testing = "64 rows and a rest";
    for (rest = 1; rest < SKY_ROW_SIZE; rest++) {
        require_answer(sky_write(list + 7, SKY_ROWS_MAX + rest, lend(&lent), 0),
                       SKY_BAD_ROW_COUNT, 0, 0, 0);
        require_written(&lent, list, 0);
    }
}

static void test_kinds(void)
{
    static const uint8_t first[13] = {0, 1, 1, 1, 1, 1, 2, 2, 2, 2, 2, 2, 3};
    unsigned number;
    now_testing = "kinds";
    for (number = 0; number <= 255; number++)
        require(sky_kind((uint8_t)number) == (number <= 12 ? first[number] : 0),
                "wrong kind");
}

int main(void)
{
    test_refusals();
    test_writer_refusals();
    test_buffers();
    test_many_rows();
    test_kinds();
    printf("test_list: all well\n");
    return 0;
}
