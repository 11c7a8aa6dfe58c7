/*
 * Which buffer a start-split takes, over every arrangement of the buffers.
 *
 * A buffer is empty, or pending, ready or old with one of five keys.  For each
 * arrangement of these 16 states the reason, the answer and every byte of the
 * area are those of document 01's rule with C-18's limit.  An arrangement that
 * docs/AREA.md forbids is refused.
 */

#include "calls.h"

enum { EMPTY, PENDING, READY, OLD };

enum { BUFFER_LENGTH = 72, STATES = 16 };

/* Both lanes and directions. */
static const call start_splits[] = {
    {.kind = START_SPLIT, .lane = 0, .pid = GRIMHOLDI_PID_IN,
     .transfer = GRIMHOLDI_TRANSFER_BULK, .toggle = 1, .address = 5,
     .endpoint = 1},
    {.kind = START_SPLIT, .lane = 1, .pid = GRIMHOLDI_PID_IN,
     .transfer = GRIMHOLDI_TRANSFER_BULK, .toggle = 1, .address = 5,
     .endpoint = 1},
    {.kind = START_SPLIT, .lane = 0, .pid = GRIMHOLDI_PID_SETUP,
     .transfer = GRIMHOLDI_TRANSFER_CONTROL, .low_speed = 1, .address = 5,
     .endpoint = 1, .bytes = "8 bytes.", .length = 8},
    {.kind = START_SPLIT, .lane = 1, .pid = GRIMHOLDI_PID_OUT,
     .transfer = GRIMHOLDI_TRANSFER_BULK, .toggle = 1, .address = 5,
     .endpoint = 1, .bytes = "new", .length = 3}
};

enum { START_SPLITS = sizeof start_splits / sizeof start_splits[0] };

/* Arrangements. */

static const char *const status_names[] = {"empty", "pending", "ready", "old"};

/* The keys that a buffer may hold, by what differs from the start-split's. */
static const struct {
    uint8_t lane, pipe, direction;
    const char *name;
} keys[] = {
    {0, 0, 0, "its key"},
    {0, 1, 0, "another pipe"},
    {1, 0, 0, "the other lane's same pipe"},
    {1, 1, 0, "another pipe of the other lane"},
    {0, 0, 1, "the other direction"}
};

enum { KEYS = sizeof keys / sizeof keys[0] };

/* State 0 is empty; the keys pending, the keys ready, the keys old follow. */

static uint8_t status_of(uint32_t state)
{
    return (uint8_t)((state + KEYS - 1) / KEYS);
}

static uint32_t key_of(uint32_t state)
{
    return (state + KEYS - 1) % KEYS;
}

/*
 * Another pipe has another address in even buffers, another endpoint in odd
 * ones.  The buffer with the higher number was accepted earlier.
 */
static void put_state(uint32_t number, uint32_t state, const call *c)
{
    uint8_t *buffer = buffer_bytes(number);
    const uint8_t status = status_of(state);
    const uint32_t key = key_of(state);
    const uint32_t lane = keys[key].lane ? 1 - c->lane : c->lane;
    const int is_in = (c->pid == GRIMHOLDI_PID_IN) != keys[key].direction;

    memset(buffer, 0, BUFFER_LENGTH);
    if (status == EMPTY)
        return;
    buffer[0] = status;
    buffer[1] = is_in ? GRIMHOLDI_PID_IN : GRIMHOLDI_PID_OUT;
    buffer[2] = GRIMHOLDI_TRANSFER_BULK;
    buffer[3] = (uint8_t)(lane << 2);
    buffer[4] = (uint8_t)c->address;
    buffer[5] = (uint8_t)c->endpoint;
    if (keys[key].pipe)
        buffer[number % 2 == 0 ? 4 : 5] += (uint8_t)(5 + number);
    if (status == PENDING)
        buffer[6] = (uint8_t)(200 - 10 * number);
    else
        buffer[6] = is_in ? GRIMHOLDI_RESULT_DATA0 : GRIMHOLDI_RESULT_ACK;
    if (is_in != (status == PENDING)) {
        buffer[7] = GRIMHOLDI_PAYLOAD_MAX;
        memset(buffer + 8, (int)(0xA0 + number), GRIMHOLDI_PAYLOAD_MAX);
    }
}

/* Its digits to the base of 16 are the states, buffer 0's the lowest. */
static void put_arrangement(uint32_t arrangement, const call *c)
{
    uint32_t i;

    for (i = 0; i < area[1]; i++, arrangement /= STATES)
        put_state(i, arrangement % STATES, c);
}

/* A key is held twice, or a lane holds all buffers pending or ready. */
static int is_forbidden(void)
{
    uint32_t i, j;

    for (i = 0; i < area[1]; i++)
        for (j = 0; j < i; j++) {
            const uint8_t *other = buffer_bytes(j);

            if (other[0] != EMPTY
                && has_key(i, other[3] >> 2, other[1], other[4], other[5]))
                return 1;
        }
    return held_by(0) == area[1] || held_by(1) == area[1];
}

/*
 * How many arrangements of B buffers are permitted.
 *
 * Three keys have the start-split's pipe and can be held once each; another
 * pipe differs from buffer to buffer.  If k of the three are held, in buffers
 * of their own and one of 3 statuses each, every other buffer is in one of 7
 * states: empty, or another pipe of either lane in one of 3 statuses.  That is
 * C(3, k) * B!/(B - k)! * 3^k * 7^(B - k), added up over k.
 *
 * Among these one lane holds all B, each pending or ready, in 2^B cases for
 * each choice of keys: 1 + 2B + B(B - 1) choices in the start-split's lane,
 * which has two of the three keys, and 1 + B in the other, which has one.
 */
static const uint32_t permitted[] = {
    [2] = 49 + 126 + 54 - 4 * (7 + 3),
    [3] = 343 + 1323 + 1134 + 162 - 8 * (13 + 4),
    [4] = 2401 + 12348 + 15876 + 4536 - 16 * (21 + 5)
};

/* What is due. */

typedef struct {
    uint8_t reason; /* GRIMHOLDI_WHY_.. */
    uint8_t value;  /* the buffer or number that it names, or 0 */
    uint8_t answer;
} outcome;

static outcome due(uint8_t reason, uint32_t value, uint8_t answer)
{
    outcome o = {reason, (uint8_t)value, answer};

    return o;
}

static int has_key_of(uint32_t number, const call *c)
{
    return has_key(number, c->lane, c->pid, c->address, c->endpoint);
}

/* In the documents' words and order; each step goes over the buffers anew. */
static outcome due_by_the_rule(const call *c)
{
    uint32_t i;

    /* "a buffer with its key that is pending or ready, ACK" */
    for (i = 0; i < area[1]; i++)
        if (has_key_of(i, c) && is_held(i))
            return due(GRIMHOLDI_WHY_HELD, i, GRIMHOLDI_ANSWER_DONE);

    /* "whose storing would pass the limit, in its own old buffer too" */
    if (held_by(c->lane) >= area[1] - 1u)
        return due(GRIMHOLDI_WHY_LIMIT, 0, GRIMHOLDI_ANSWER_NAK);

    /* "one that is old, reuse it" */
    for (i = 0; i < area[1]; i++)
        if (has_key_of(i, c) && buffer_bytes(i)[0] == OLD)
            return due(GRIMHOLDI_WHY_REUSED, i, GRIMHOLDI_ANSWER_DONE);

    /* "no key match, the lowest-numbered empty or old one" */
    for (i = 0; i < area[1]; i++)
        if (buffer_bytes(i)[0] == EMPTY || buffer_bytes(i)[0] == OLD)
            return due(GRIMHOLDI_WHY_TOOK_FREE, i, GRIMHOLDI_ANSWER_DONE);

    /* "none, 3" */
    return due(GRIMHOLDI_WHY_NO_ROOM, 0, GRIMHOLDI_ANSWER_NAK);
}

/* How many pending buffers were accepted before this one. */
static uint8_t rank_of(uint32_t number)
{
    uint8_t rank = 0;
    uint32_t i;

    for (i = 0; i < area[1]; i++)
        rank += buffer_bytes(i)[0] == PENDING
                && buffer_bytes(i)[6] < buffer_bytes(number)[6];
    return rank;
}

/*
 * Makes the saved area the one that is due: the start-split in this buffer,
 * accepted last, and the ranks of the other pending ones as their places.
 */
static void store_in_saved(uint32_t number, const call *c)
{
    uint8_t *buffers = saved_area + (buffer_bytes(0) - area);
    uint8_t *stored = buffers + BUFFER_LENGTH * number;
    uint8_t pending = 0;
    uint32_t i;

    for (i = 0; i < area[1]; i++)
        if (buffer_bytes(i)[0] == PENDING) {
            buffers[BUFFER_LENGTH * i + 6] = rank_of(i);
            pending++;
        }
    memset(stored, 0, BUFFER_LENGTH);
    stored[0] = PENDING;
    stored[1] = (uint8_t)c->pid;
    stored[2] = (uint8_t)c->transfer;
    stored[3] = (uint8_t)(c->low_speed | c->toggle << 1 | c->lane << 2);
    stored[4] = (uint8_t)c->address;
    stored[5] = (uint8_t)c->endpoint;
    stored[6] = pending;
    stored[7] = (uint8_t)c->length;
    memcpy(stored + 8, c->bytes, c->length);
}

/* The search. */

static grimholdi_reason why(const call *c)
{
    return grimholdi_why_start_split(area, area_len, c->lane, c->pid,
                                     c->transfer, c->low_speed, c->toggle,
                                     c->address, c->endpoint, c->bytes,
                                     c->length);
}

/* Explained, then made. */
static void check_start_split(const call *c, outcome o)
{
    grimholdi_answer answer;

    save();
    CHECK(is_reason(why(c), o.reason, o.value));
    CHECK(area_is_saved());
    if (o.reason == GRIMHOLDI_WHY_REUSED
        || o.reason == GRIMHOLDI_WHY_TOOK_FREE)
        store_in_saved(o.value, c);
    answer = make(c);
    CHECK(answer.number == o.answer && is_bare(answer));
    CHECK(area_is_saved());
}

static void report(uint32_t arrangement, const call *c, outcome o)
{
    uint32_t i;

    printf("search: PID %u in lane %u, due reason %u, value %u, answer %u;",
           (unsigned)c->pid, (unsigned)c->lane, o.reason, o.value, o.answer);
    for (i = 0; i < area[1]; i++, arrangement /= STATES) {
        uint32_t state = arrangement % STATES;

        printf("%s %s", i == 0 ? "" : ",", status_names[status_of(state)]);
        if (state != 0)
            printf(" with %s", keys[key_of(state)].name);
    }
    printf("\n");
}

/* All arrangements, or up to the first that fails. */
static void search(uint32_t buffers, const call *c)
{
    const uint32_t arrangements = 1u << 4 * buffers; /* 16 states each */
    const unsigned long failed = failures;
    uint32_t tried = 0, refused = 0;
    uint32_t i;

    configured_hub(1, buffers);
    for (i = 0; i < arrangements; i++) {
        outcome o = due(GRIMHOLDI_WHY_NUMBER, GRIMHOLDI_ANSWER_OUTSIDE,
                        GRIMHOLDI_ANSWER_OUTSIDE);

        put_arrangement(i, c);
        if (is_forbidden()) {
            refused++;
        } else {
            tried++;
            o = due_by_the_rule(c);
        }
        check_start_split(c, o);
        if (failures != failed) {
            report(i, c, o);
            return;
        }
    }
    CHECK(tried == permitted[buffers]);
    CHECK(refused == arrangements - permitted[buffers]);
}

int main(void)
{
    uint32_t buffers;
    size_t i;

    for (i = 0; i < START_SPLITS; i++)
        for (buffers = GRIMHOLDI_BUFFERS_MIN; buffers <= GRIMHOLDI_BUFFERS_MAX;
             buffers++)
            search(buffers, &start_splits[i]);
    free_hub();
    return check_summary("search");
}
