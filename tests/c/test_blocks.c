/* A block under way: started, added to, finished. */

#include "recordings.h"

static uint8_t *block;
static uint8_t before[BLOCK];

static const uint8_t tick_record[] = {8};
static const uint8_t poll_record[] = {2, 1, 0, 0, 0, 64, 0, 0, 0};

static void keep(void)
{
    memcpy(before, block, BLOCK);
}

static int is_kept(void)
{
    return memcmp(before, block, BLOCK) == 0;
}

/* A deliver of a payload that makes the record that long, 7 at least. */
static const uint8_t *long_record(size_t length)
{
    static uint8_t record[BLOCK + 100];
    size_t i;

    record[0] = 6;
    memset(record + 1, 0, 4);
    put_two(record + 5, (uint32_t)(length - 7));
    for (i = 7; i < length; i++)
        record[i] = (uint8_t)(i * 3 + 1);
    return record;
}

/* OUTSIDE from add and finish, and the block keeps each byte. */
static void check_not_under_way(void)
{
    keep();
    CHECK(grimholdi_block_add(block, BLOCK, tick_record, 1)
          == GRIMHOLDI_ANSWER_OUTSIDE);
    CHECK(grimholdi_block_finish(block, BLOCK) == GRIMHOLDI_ANSWER_OUTSIDE);
    CHECK(is_kept());
}

static void started(void)
{
    static const uint32_t right[] = {1, 2, 255, 256, 4660, 65534, 65535};
    static const uint32_t wrong[] = {0, 65536, 65537, 131072, UINT32_MAX};
    uint8_t due_block[BLOCK];
    size_t i;

    for (i = 0; i < sizeof right / sizeof *right; i++) {
        memset(block, 0xEE, BLOCK);
        CHECK(grimholdi_block_start(block, BLOCK, right[i])
              == GRIMHOLDI_ANSWER_DONE);
        put_under_way(due_block, right[i], NULL, 0);
        CHECK(memcmp(block, due_block, BLOCK) == 0);
    }
    memset(block, 0xEE, BLOCK);
    keep();
    for (i = 0; i < sizeof wrong / sizeof *wrong; i++)
        CHECK(grimholdi_block_start(block, BLOCK, wrong[i])
              == GRIMHOLDI_ANSWER_OUTSIDE);
    CHECK(is_kept());
}

/* 511 and 513 bytes, and none. */
static void wrong_lengths(void)
{
    uint8_t *longer = allocate(BLOCK + 1);
    uint8_t kept[BLOCK + 1];

    put_under_way(block, 1, poll_record, sizeof poll_record);
    put_under_way(longer, 1, poll_record, sizeof poll_record);
    memcpy(kept, longer, sizeof kept);
    keep();
    CHECK(grimholdi_block_start(block, 511, 1) == GRIMHOLDI_ANSWER_OUTSIDE);
    CHECK(grimholdi_block_add(block, 511, tick_record, 1)
          == GRIMHOLDI_ANSWER_OUTSIDE);
    CHECK(grimholdi_block_finish(block, 511) == GRIMHOLDI_ANSWER_OUTSIDE);
    CHECK(is_kept());
    CHECK(grimholdi_block_start(longer, 513, 1) == GRIMHOLDI_ANSWER_OUTSIDE);
    CHECK(grimholdi_block_add(longer, 513, tick_record, 1)
          == GRIMHOLDI_ANSWER_OUTSIDE);
    CHECK(grimholdi_block_finish(longer, 513) == GRIMHOLDI_ANSWER_OUTSIDE);
    CHECK(memcmp(longer, kept, sizeof kept) == 0);
    CHECK(grimholdi_block_start(NULL, 0, 1) == GRIMHOLDI_ANSWER_OUTSIDE);
    CHECK(grimholdi_block_add(NULL, 0, tick_record, 1)
          == GRIMHOLDI_ANSWER_OUTSIDE);
    CHECK(grimholdi_block_finish(NULL, 0) == GRIMHOLDI_ANSWER_OUTSIDE);
    CHECK(grimholdi_block_add(block, BLOCK, NULL, 0)
          == GRIMHOLDI_ANSWER_OUTSIDE);
    CHECK(is_kept());
    free(longer);
}

/* First bytes not zero, last bytes zero, count above 506. */
static void not_under_way(void)
{
    int i;

    for (i = 0; i < 2; i++) {
        put_under_way(block, 258, NULL, 0);
        block[i] = 1;
        check_not_under_way();
    }
    put_under_way(block, 0, NULL, 0);
    check_not_under_way();
    put_under_way(block, 1, NULL, 0);
    put_two(block + 2, 507);
    check_not_under_way();
    put_two(block + 2, 65535);
    check_not_under_way();
    put_two(block + 2, 256 * 2);
    check_not_under_way();
    memset(block, 0xEE, BLOCK);
    check_not_under_way();
    put_finished(block, 1, tick_record, 1);
    check_not_under_way();
    put_finished(block, 65535, NULL, 0);
    check_not_under_way();

    /* One byte of the number that waits is enough. */
    put_under_way(block, 256, NULL, 0);
    CHECK(grimholdi_block_add(block, BLOCK, tick_record, 1)
          == GRIMHOLDI_ANSWER_DONE);
    put_under_way(block, 255, NULL, 0);
    CHECK(grimholdi_block_add(block, BLOCK, tick_record, 1)
          == GRIMHOLDI_ANSWER_DONE);
}

/* For each count, the longest record that fits, and one byte more. */
static void fits_or_not(void)
{
    uint8_t records[USED_MAX];
    uint8_t due_block[BLOCK];
    size_t used;

    memset(records, 8, sizeof records);
    for (used = 0; used <= USED_MAX; used++) {
        size_t room = USED_MAX - used;
        size_t fitting = room < 7 ? 7 : room;

        put_under_way(block, 3, records, used);
        keep();
        CHECK(grimholdi_block_add(block, BLOCK, long_record(fitting + 1),
                                  fitting + 1) == GRIMHOLDI_ANSWER_NAK);
        CHECK(is_kept());
        CHECK(grimholdi_block_add(block, BLOCK, long_record(fitting), fitting)
              == (room < 7 ? GRIMHOLDI_ANSWER_NAK : GRIMHOLDI_ANSWER_DONE));
        if (room < 7) {
            CHECK(is_kept());
            continue;
        }
        put_under_way(due_block, 3, records, used);
        put_two(due_block + 2, USED_MAX);
        memcpy(due_block + 4 + used, long_record(fitting), fitting);
        CHECK(memcmp(block, due_block, BLOCK) == 0);
    }
}

static void ticks_until_full(void)
{
    uint8_t records[USED_MAX];
    uint8_t due_block[BLOCK];
    size_t i;

    memset(records, 8, sizeof records);
    CHECK(grimholdi_block_start(block, BLOCK, 40000) == GRIMHOLDI_ANSWER_DONE);
    for (i = 1; i <= USED_MAX; i++) {
        CHECK(grimholdi_block_add(block, BLOCK, tick_record, 1)
              == GRIMHOLDI_ANSWER_DONE);
        put_under_way(due_block, 40000, records, i);
        CHECK(memcmp(block, due_block, BLOCK) == 0);
    }
    keep();
    CHECK(grimholdi_block_add(block, BLOCK, tick_record, 1)
          == GRIMHOLDI_ANSWER_NAK);
    CHECK(is_kept());
    CHECK(grimholdi_block_finish(block, BLOCK) == GRIMHOLDI_ANSWER_DONE);
    put_finished(due_block, 40000, records, USED_MAX);
    CHECK(memcmp(block, due_block, BLOCK) == 0);
}

/* OUTSIDE comes before NAK. */
static void outside_before_nak(void)
{
    uint8_t records[USED_MAX];
    uint8_t bad[600] = {0};

    memset(records, 8, sizeof records);
    put_under_way(block, 1, records, USED_MAX);
    keep();
    CHECK(grimholdi_block_add(block, BLOCK, bad, 1)
          == GRIMHOLDI_ANSWER_OUTSIDE);
    CHECK(grimholdi_block_add(block, BLOCK, bad, 600)
          == GRIMHOLDI_ANSWER_OUTSIDE);
    CHECK(grimholdi_block_add(block, BLOCK, NULL, 0)
          == GRIMHOLDI_ANSWER_OUTSIDE);
    CHECK(is_kept());
    put_finished(block, 1, NULL, 0);
    keep();
    CHECK(grimholdi_block_add(block, BLOCK, long_record(507), 507)
          == GRIMHOLDI_ANSWER_OUTSIDE);
    CHECK(is_kept());
}

/* Add asks neither for zeros behind the records nor for records. */
static void add_looks_at_its_own(void)
{
    uint8_t due_block[BLOCK];

    put_under_way(block, 1, NULL, 0);
    block[4] = 0;
    block[2] = 1; /* a byte used that is no record */
    block[100] = 7;
    memcpy(due_block, block, BLOCK);
    due_block[2] = 2;
    due_block[5] = 8;
    CHECK(grimholdi_block_add(block, BLOCK, tick_record, 1)
          == GRIMHOLDI_ANSWER_DONE);
    CHECK(memcmp(block, due_block, BLOCK) == 0);
}

static void finished(void)
{
    static const uint32_t numbers[] = {1, 256, 4660, 65535};
    uint8_t due_block[BLOCK];
    size_t i;

    for (i = 0; i < sizeof numbers / sizeof *numbers; i++) {
        CHECK(grimholdi_block_start(block, BLOCK, numbers[i])
              == GRIMHOLDI_ANSWER_DONE);
        CHECK(grimholdi_block_add(block, BLOCK, long_record(300), 300)
              == GRIMHOLDI_ANSWER_DONE);
        CHECK(grimholdi_block_finish(block, BLOCK) == GRIMHOLDI_ANSWER_DONE);
        put_finished(due_block, numbers[i], long_record(300), 300);
        CHECK(memcmp(block, due_block, BLOCK) == 0);
        check_not_under_way();
    }

    /* Without records, and with a sum of 0 before the check. */
    CHECK(grimholdi_block_start(block, BLOCK, 9) == GRIMHOLDI_ANSWER_DONE);
    CHECK(grimholdi_block_finish(block, BLOCK) == GRIMHOLDI_ANSWER_DONE);
    put_finished(due_block, 9, NULL, 0);
    CHECK(memcmp(block, due_block, BLOCK) == 0);
    CHECK(grimholdi_block_start(block, BLOCK, 65536 - 1 - 8)
          == GRIMHOLDI_ANSWER_DONE);
    CHECK(grimholdi_block_add(block, BLOCK, tick_record, 1)
          == GRIMHOLDI_ANSWER_DONE);
    CHECK(grimholdi_block_finish(block, BLOCK) == GRIMHOLDI_ANSWER_DONE);
    CHECK(block[510] == 0 && block[511] == 0);
}

/* The block of docs/CALLS.md. */
static void worked_example(void)
{
    uint8_t due_block[BLOCK] = {1, 0, 1, 0, 8};

    due_block[510] = 0xF6;
    due_block[511] = 0xFF;
    CHECK(grimholdi_block_start(block, BLOCK, 1) == GRIMHOLDI_ANSWER_DONE);
    CHECK(grimholdi_block_add(block, BLOCK, tick_record, 1)
          == GRIMHOLDI_ANSWER_DONE);
    CHECK(grimholdi_block_finish(block, BLOCK) == GRIMHOLDI_ANSWER_DONE);
    CHECK(memcmp(block, due_block, BLOCK) == 0);
}

/* Each byte of a block under way, changed. */
static void damaged(void)
{
    uint8_t records[3 * sizeof poll_record];
    uint8_t due_block[BLOCK];
    uint32_t at, value;

    for (at = 0; at < sizeof records; at++)
        records[at] = poll_record[at % sizeof poll_record];
    for (at = 0; at < BLOCK; at++)
        for (value = 0; value < 256; value += at < 31 || at > 508 ? 1 : 85) {
            int good;

            put_under_way(block, 0x1234, records, sizeof records);
            block[at] = (uint8_t)value;
            keep();
            /* What it would be when finished, if it can be. */
            memcpy(due_block, block, BLOCK);
            memcpy(due_block, block + 510, 2);
            put_check(due_block);
            good = block[0] == 0 && block[1] == 0
                   && read_block(due_block, due_block[0]
                                            + 256u * due_block[1]) == 0;
            CHECK(grimholdi_block_finish(block, BLOCK)
                  == (good ? GRIMHOLDI_ANSWER_DONE
                           : GRIMHOLDI_ANSWER_OUTSIDE));
            CHECK(memcmp(block, good ? due_block : before, BLOCK) == 0);
        }
}

int main(void)
{
    block = allocate(BLOCK);
    started();
    wrong_lengths();
    not_under_way();
    fits_or_not();
    ticks_until_full();
    outside_before_nak();
    add_looks_at_its_own();
    finished();
    worked_example();
    damaged();
    free(block);
    return check_summary("blocks");
}
