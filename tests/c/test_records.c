/* The written form of each call, its builder, and what is taken for one. */

#include "recordings.h"

#define FILL 0xEE

static uint8_t *block;

/* Memory of exactly that length, filled with a pattern. */
static uint8_t *space;
static size_t space_len;

static void lend(size_t length)
{
    free(space);
    space = allocate(length > 0 ? length : 1);
    space_len = length;
}

static int is_filled(const uint8_t *bytes, size_t length)
{
    while (length > 0)
        if (bytes[--length] != FILL)
            return 0;
    return 1;
}

/* What a new block with a record in it answers to this one, from a copy of
   exactly its length; the block is changed by DONE alone. */
static uint8_t add(const uint8_t *record, size_t length)
{
    uint8_t *copy = allocate(length > 0 ? length : 1);
    uint8_t before[BLOCK];
    uint8_t answer;

    put_under_way(block, 1, (const uint8_t *)"\x09", 1);
    memcpy(before, block, BLOCK);
    if (length > 0)
        memcpy(copy, record, length);
    answer = grimholdi_block_add(block, BLOCK, copy, length);
    CHECK((memcmp(block, before, BLOCK) == 0)
          == (answer != GRIMHOLDI_ANSWER_DONE));
    free(copy);
    return answer;
}

/* The record is taken; with a byte less or more, or another tag, it isn't. */
static void check_taken(const uint8_t *bytes, size_t length)
{
    uint8_t changed[BLOCK] = {0};

    CHECK(add(bytes, length) == GRIMHOLDI_ANSWER_DONE);
    CHECK(add(bytes, length - 1) == GRIMHOLDI_ANSWER_OUTSIDE);
    memcpy(changed, bytes, length);
    CHECK(add(changed, length + 1) == GRIMHOLDI_ANSWER_OUTSIDE);
    changed[length] = 8; /* a further record */
    CHECK(add(changed, length + 1) == GRIMHOLDI_ANSWER_OUTSIDE);
    changed[0] = 0;
    CHECK(add(changed, length) == GRIMHOLDI_ANSWER_OUTSIDE);
    changed[0] = 10;
    CHECK(add(changed, length) == GRIMHOLDI_ANSWER_OUTSIDE);
}

/* A call that builds a record in `space` writes these bytes and no others. */
#define CHECK_BUILT(bytes, call)                                         \
    do {                                                                 \
        const size_t length_ = sizeof bytes - 1;                         \
                                                                         \
        lend(length_);                                                   \
        CHECK((call) == length_);                                        \
        CHECK(memcmp(space, bytes, length_) == 0);                       \
        check_taken((const uint8_t *)bytes, length_);                    \
        lend(length_ + 1);                                               \
        CHECK((call) == length_);                                        \
        CHECK(memcmp(space, bytes, length_) == 0);                       \
        CHECK(space[length_] == FILL);                                   \
        lend(length_ - 1);                                               \
        CHECK((call) == 0);                                              \
        CHECK(is_filled(space, space_len));                              \
        lend(0);                                                         \
        CHECK((call) == 0);                                              \
    } while (0)

#define BYTES(text) ((const uint8_t *)text), sizeof text - 1

static void control_records(void)
{
    CHECK_BUILT("\x01\x00\x00\x00\x00\x40\x00\x00\x00\x08\x00"
                "\x00\x09\x01\x00\x00\x00\x00\x00",
                grimholdi_record_control(
                    space, space_len, 0,
                    BYTES("\x00\x09\x01\x00\x00\x00\x00\x00"), 64));
    /* Refused ones: lane 2, seven setup bytes, none. */
    CHECK_BUILT("\x01\x02\x00\x00\x00\x3F\x00\x00\x00\x07\x00"
                "\x80\x08\x00\x00\x00\x00\x01",
                grimholdi_record_control(
                    space, space_len, 2,
                    BYTES("\x80\x08\x00\x00\x00\x00\x01"), 63));
    CHECK_BUILT("\x01\x04\x03\x02\x01\x08\x07\x06\x05\x00\x00",
                grimholdi_record_control(space, space_len, 0x01020304, NULL, 0,
                                         0x05060708));
}

static void poll_records(void)
{
    CHECK_BUILT("\x02\x01\x00\x00\x00\x40\x00\x00\x00",
                grimholdi_record_poll(space, space_len, 1, 64));
    CHECK_BUILT("\x02\xFF\xFF\xFF\xFF\x00\x00\x00\x00",
                grimholdi_record_poll(space, space_len, FAR_NUMBER, 0));
}

static void split_records(void)
{
    CHECK_BUILT("\x03\x01\x00\x00\x00\x09\x00\x00\x00\x02\x00\x00\x00"
                "\x00\x00\x00\x00\x00\x00\x00\x00\x05\x00\x00\x00"
                "\x01\x00\x00\x00\x00\x00",
                grimholdi_record_start_split(
                    space, space_len, 1, GRIMHOLDI_PID_IN,
                    GRIMHOLDI_TRANSFER_BULK, 0, 0, 5, 1, NULL, 0));
    /* Address 200, and numbers that show their order. */
    CHECK_BUILT("\x03\x01\x00\x00\x00\x02\x00\x00\x00\x03\x00\x00\x00"
                "\x04\x00\x00\x00\x05\x00\x00\x00\xC8\x00\x00\x00"
                "\x07\x00\x00\x80\x02\x00\x41\x42",
                grimholdi_record_start_split(space, space_len, 1, 2, 3, 4, 5,
                                             200, 0x80000007, BYTES("AB")));
    CHECK_BUILT("\x04\x01\x00\x00\x00\x02\x00\x00\x00\x03\x00\x00\x00"
                "\x04\x00\x00\x00\x00\x01\x00\x00",
                grimholdi_record_complete_split(space, space_len, 1, 2, 3, 4,
                                                256));
}

static void other_records(void)
{
    CHECK_BUILT("\x05\x40\x00\x00\x00",
                grimholdi_record_launch(space, space_len, 64));
    CHECK_BUILT("\x06\x03\x00\x00\x00\x03\x00\x11\x22\x33",
                grimholdi_record_deliver(space, space_len,
                                         GRIMHOLDI_RESULT_DATA0,
                                         BYTES("\x11\x22\x33")));
    CHECK_BUILT("\x06\x00\x00\x00\x01\x00\x00",
                grimholdi_record_deliver(space, space_len, 0x01000000, NULL,
                                         0));
    CHECK_BUILT("\x07\x06\x00\x00\x00\x02\x00\x00\x00",
                grimholdi_record_line_event(
                    space, space_len, GRIMHOLDI_EVENT_OVER_CURRENT_ON, 2));
    CHECK_BUILT("\x08", grimholdi_record_tick(space, space_len));
    CHECK_BUILT("\x09", grimholdi_record_bus_reset(space, space_len));
}

/* Refused by the hub, and a record: 65 payload bytes. */
static void too_much_payload(void)
{
    static const char head[] = "\x03\x00\x00\x00\x00\x01\x00\x00\x00"
                               "\x02\x00\x00\x00\x00\x00\x00\x00"
                               "\x01\x00\x00\x00\x05\x00\x00\x00"
                               "\x01\x00\x00\x00\x41\x00";
    uint8_t due_record[96];
    uint8_t payload[65];
    size_t i;

    for (i = 0; i < sizeof payload; i++)
        payload[i] = (uint8_t)(i + 1);
    memcpy(due_record, head, 31);
    memcpy(due_record + 31, payload, sizeof payload);
    lend(96);
    CHECK(grimholdi_record_start_split(space, space_len, 0, GRIMHOLDI_PID_OUT,
                                       GRIMHOLDI_TRANSFER_BULK, 0, 1, 5, 1,
                                       payload, sizeof payload) == 96);
    CHECK(memcmp(space, due_record, 96) == 0);
    check_taken(space, 96);
}

/* A reply space is written as at most 4,294,967,295. */
static void long_reply_spaces(void)
{
    CHECK_BUILT("\x05\xFF\xFF\xFF\xFF",
                grimholdi_record_launch(space, space_len, UINT32_MAX));
    CHECK_BUILT("\x05\xFE\xFF\xFF\xFF",
                grimholdi_record_launch(space, space_len, UINT32_MAX - 1));
#if SIZE_MAX > UINT32_MAX
    CHECK_BUILT("\x05\xFF\xFF\xFF\xFF",
                grimholdi_record_launch(space, space_len,
                                        (size_t)UINT32_MAX + 1));
    CHECK_BUILT("\x02\x00\x00\x00\x00\xFF\xFF\xFF\xFF",
                grimholdi_record_poll(space, space_len, 0,
                                      (size_t)UINT32_MAX + 65));
    CHECK_BUILT("\x04\x00\x00\x00\x00\x00\x00\x00\x00\x00\x00\x00\x00"
                "\x00\x00\x00\x00\xFF\xFF\xFF\xFF",
                grimholdi_record_complete_split(space, space_len, 0, 0, 0, 0,
                                                SIZE_MAX));
    CHECK_BUILT("\x01\x00\x00\x00\x00\xFF\xFF\xFF\xFF\x00\x00",
                grimholdi_record_control(space, space_len, 0, NULL, 0,
                                         SIZE_MAX));
#endif
}

/* The count of bytes has two bytes. */
static void long_payloads(void)
{
    uint8_t *payload = allocate(65536);

    lend(65536 + 31);
    CHECK(grimholdi_record_deliver(space, space_len, 3, payload, 65535)
          == 7 + 65535);
    CHECK(memcmp(space, "\x06\x03\x00\x00\x00\xFF\xFF", 7) == 0);
    CHECK(add(space, 7 + 65535) == GRIMHOLDI_ANSWER_NAK);
    CHECK(add(space, 7 + 65534) == GRIMHOLDI_ANSWER_OUTSIDE);
    lend(65536 + 31);
    CHECK(grimholdi_record_deliver(space, space_len, 3, payload, 65536) == 0);
    CHECK(grimholdi_record_control(space, space_len, 0, payload, 65536, 64)
          == 0);
    CHECK(grimholdi_record_start_split(space, space_len, 0, 1, 2, 0, 0, 5, 1,
                                       payload, 65536) == 0);
    CHECK(is_filled(space, space_len));
    free(payload);
}

/* Answers what the reader says of these bytes; true if they are a record. */
static int check_read(const uint8_t *bytes, size_t length)
{
    const int is_record = length > 0 && read_record(bytes, length) == length;

    CHECK(add(bytes, length) == (is_record ? GRIMHOLDI_ANSWER_DONE
                                           : GRIMHOLDI_ANSWER_OUTSIDE));
    return is_record;
}

/* All tags and lengths; where the tag has bytes, counts around their end. */
static void read_as_the_table_says(void)
{
    static const int off[] = {-1, 0, 1, 256};
    uint8_t bytes[60];
    unsigned records = 0;
    unsigned tag, length, i;

    for (tag = 0; tag < 256; tag++)
        for (length = 0; length <= sizeof bytes; length++)
            for (i = 0; i < (has_bytes((uint8_t)tag) ? 4 : 1); i++) {
                size_t head = table_length((uint8_t)tag);

                memset(bytes, 0xA5, sizeof bytes);
                bytes[0] = (uint8_t)tag;
                if (has_bytes((uint8_t)tag))
                    put_two(bytes + head - 2,
                            (uint32_t)((int)length - (int)head + off[i])
                            & 0xFFFF);
                records += (unsigned)check_read(bytes, length);
            }
    /* 11, 31 and 7 to 60 bytes with the right count, and six others. */
    CHECK(records == 50 + 30 + 54 + 6);
}

int main(void)
{
    block = allocate(BLOCK);
    control_records();
    poll_records();
    split_records();
    other_records();
    too_much_payload();
    long_reply_spaces();
    long_payloads();
    read_as_the_table_says();
    free(block);
    free(space);
    return check_summary("records");
}
