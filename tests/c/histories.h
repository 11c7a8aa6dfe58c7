/*
 * Two histories of calls from equal new hubs, that become equal when each call
 * naming the picked port is struck out.  They are made side by side; the calls
 * are kept, so that each history can be made again alone.
 */

#ifndef HISTORIES_H
#define HISTORIES_H

#include "disturbances.h"

enum { LEFT, RIGHT };

typedef struct {
    uint8_t *area;           /* of its exact length */
    uint8_t *space;          /* REPLY_MAX bytes, a reply is at their end */
    uint8_t lent[REPLY_MAX]; /* what these held before the last call */
    size_t reply_len;        /* of the last call */
    grimholdi_answer answer; /* to the last call */
    uint64_t digest;         /* of all that the calls gave and left */
} history;

static history histories[2];

/* Planted behind each call, or NULL. */
static disturbance *planted;

/* Digests are those of FNV-1a, of 64 bits. */
#define FNV_BASIS UINT64_C(0xCBF29CE484222325)
#define FNV_PRIME UINT64_C(0x100000001B3)

/* What both hubs were made from. */
static struct {
    uint32_t ports;
    uint32_t buffers;
    uint8_t numbers[3]; /* power-good, current, removable */
} made_from;

static inline uint8_t *reply_of(int side)
{
    return histories[side].space + REPLY_MAX - histories[side].reply_len;
}

/* How many bytes the last answer gave. */
static inline size_t given_by(int side)
{
    const history *h = &histories[side];

    if (h->answer.number != GRIMHOLDI_ANSWER_DATA)
        return 0;
    return h->answer.length < h->reply_len ? h->answer.length : h->reply_len;
}

/* Makes this history's hub the one under test. */
static inline void take(int side)
{
    area = histories[side].area;
    reply = reply_of(side);
    lent = histories[side].lent + REPLY_MAX - histories[side].reply_len;
}

static inline void free_history(int side)
{
    free(histories[side].area);
    free(histories[side].space);
    memset(&histories[side], 0, sizeof histories[side]);
}

static inline void free_histories(void)
{
    free_history(LEFT);
    free_history(RIGHT);
    area = NULL;
    reply = NULL;
    lent = NULL;
}

/* The area holds garbage of its own before the hub is made. */
static inline void start_history(int side)
{
    const uint8_t *numbers = made_from.numbers;
    history *h = &histories[side];

    free_history(side);
    h->area = allocate(area_len);
    h->space = allocate(REPLY_MAX);
    h->digest = FNV_BASIS;
    draw_bytes(h->area, area_len);
    CHECK(grimholdi_new(h->area, area_len, made_from.ports, made_from.buffers,
                        numbers[0], numbers[1], numbers[2]).number
          == GRIMHOLDI_ANSWER_DONE);
}

static inline uint64_t digest_with(uint64_t digest, const void *from,
                                   size_t length)
{
    const uint8_t *bytes = (const uint8_t *)from;
    size_t i;

    for (i = 0; i < length; i++)
        digest = (digest ^ bytes[i]) * FNV_PRIME;
    return digest;
}

/* The last answer, the bytes that it gave, and the area. */
static inline void add_to_digest(int side)
{
    history *h = &histories[side];

    h->digest = digest_with(h->digest, &h->answer, sizeof h->answer);
    h->digest = digest_with(h->digest, reply_of(side), given_by(side));
    h->digest = digest_with(h->digest, h->area, area_len);
}

/* Makes the call in one history, with any bytes in the reply space. */
static inline void make_in(int side, const call *c)
{
    history *h = &histories[side];

    draw_bytes(h->lent, REPLY_MAX);
    memcpy(h->space, h->lent, REPLY_MAX);
    h->reply_len = c->reply_len;
    take(side);
    h->answer = make(c);
    if (planted != NULL) {
        planted(c, &h->answer);
        CHECK(grimholdi_why_tick(area, area_len).kind == GRIMHOLDI_WHY_NONE);
    }
    add_to_digest(side);
}

/* The calls that were made since the hubs were new. */

enum { KEPT_MAX = 6000 };

static struct {
    call made;
    int in[2]; /* which histories it is in */
} kept[KEPT_MAX];

static size_t kept_count;

static inline void keep_call(const call *c, int in_left, int in_right)
{
    kept[kept_count].made = *c;
    kept[kept_count].in[LEFT] = in_left;
    kept[kept_count].in[RIGHT] = in_right;
    kept_count++;
}

/* Alone on a new hub, the history gives and leaves the same. */
static inline int is_made_again(int side)
{
    uint64_t due = histories[side].digest;
    size_t i;

    start_history(side);
    for (i = 0; i < kept_count; i++)
        if (kept[i].in[side])
            make_in(side, &kept[i].made);
    return histories[side].digest == due;
}

#endif
