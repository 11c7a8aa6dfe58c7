/* What is compared in two histories, but for the picked port. */

#ifndef COMPARISONS_H
#define COMPARISONS_H

#include "histories.h"

/* What is found to differ, though it must not. */
typedef enum {
    NO_DIFFERENCE, NEW_HUBS, AREAS_AFTER_ONE, AREAS_AFTER_BOTH, CALL_ANSWERS,
    POLL_ANSWERS, REPLY_SPACES, MADE_AGAIN
} difference;

static const char *const difference_names[] = {
    "nothing", "the new hubs", "the areas after a call in one",
    "the areas after a call in both", "the answers", "the polls",
    "bytes behind the reply", "a history and the same made again"
};

/* The picked port. */

static inline const uint8_t *picked_bytes(int side)
{
    return histories[side].area + port_place(picked);
}

static inline int picked_is_apart(void)
{
    return memcmp(picked_bytes(LEFT), picked_bytes(RIGHT), PORT_LENGTH) != 0;
}

static inline int picked_has_change(int side)
{
    return (picked_bytes(side)[PORT_MARKS] & MARK_CHANGES) != 0;
}

/* Areas. */

/* All bytes but those of the picked port. */
static inline int areas_agree(void)
{
    const uint8_t *left = histories[LEFT].area;
    const uint8_t *right = histories[RIGHT].area;
    size_t from = port_place(picked);
    size_t behind = from + PORT_LENGTH;

    return memcmp(left, right, from) == 0
           && memcmp(left + behind, right + behind, area_len - behind) == 0;
}

/* The first byte that differs, of all but those of the picked port. */
static inline size_t first_apart(void)
{
    size_t from = port_place(picked);
    size_t at = 0;

    while (at < area_len
           && ((at >= from && at < from + PORT_LENGTH)
               || histories[LEFT].area[at] == histories[RIGHT].area[at]))
        at++;
    return at;
}

/* Answers. */

/* The fields are bytes, so that no padding is compared. */
static inline int same_fields(const grimholdi_answer *answer,
                              const grimholdi_answer *other)
{
    return memcmp(answer, other, sizeof *answer) == 0;
}

static inline int answers_agree(void)
{
    return same_fields(&histories[LEFT].answer, &histories[RIGHT].answer)
           && memcmp(reply_of(LEFT), reply_of(RIGHT), given_by(LEFT)) == 0;
}

/* Outside the bytes that the answer gives, the space is as it was lent. */
static inline int space_is_kept(int side)
{
    const history *h = &histories[side];
    uint8_t due[REPLY_MAX];

    memcpy(due, h->lent, REPLY_MAX);
    memcpy(due + REPLY_MAX - h->reply_len, reply_of(side), given_by(side));
    return memcmp(h->space, due, REPLY_MAX) == 0;
}

/* Polls. */

/* A poll answers one byte, or a number alone. */
static inline int is_poll_answer(int side)
{
    const grimholdi_answer *answer = &histories[side].answer;
    grimholdi_answer due = {.number = answer->number};

    due.length = answer->number == GRIMHOLDI_ANSWER_DATA;
    return same_fields(answer, &due);
}

/* Where a poll is answered 3, each is: the picked port's bit alone, or 3. */
static inline int suits_nak(int side)
{
    uint8_t number = histories[side].answer.number;

    if (!picked_has_change(side))
        return number == GRIMHOLDI_ANSWER_NAK;
    return number == GRIMHOLDI_ANSWER_DATA
           && reply_of(side)[0] == 1u << picked;
}

/* The picked port's bit differs if its having a change bit does; no other. */
static inline int bits_agree(void)
{
    unsigned apart = picked_has_change(LEFT) != picked_has_change(RIGHT);

    return (reply_of(LEFT)[0] ^ reply_of(RIGHT)[0]) == apart << picked;
}

static inline int polls_agree(void)
{
    uint8_t left = histories[LEFT].answer.number;
    uint8_t right = histories[RIGHT].answer.number;

    if (!is_poll_answer(LEFT) || !is_poll_answer(RIGHT))
        return 0;
    if (left == GRIMHOLDI_ANSWER_NAK || right == GRIMHOLDI_ANSWER_NAK)
        return suits_nak(LEFT) && suits_nak(RIGHT);
    return left == right && (left != GRIMHOLDI_ANSWER_DATA || bits_agree());
}

/* Calls made and compared. */

/* Equal new hubs with any power-good, current and removable bytes. */
static inline difference new_histories(uint32_t ports, uint32_t buffers)
{
    made_from.ports = ports;
    made_from.buffers = buffers;
    draw_bytes(made_from.numbers, sizeof made_from.numbers);
    made_from.numbers[2] &= (uint8_t)((2u << ports) - 2);
    area_len = grimholdi_area_length(ports, buffers);
    kept_count = 0;
    start_history(LEFT);
    start_history(RIGHT);
    return memcmp(histories[LEFT].area, histories[RIGHT].area, area_len) == 0
               ? NO_DIFFERENCE : NEW_HUBS;
}

/* The call, which doesn't name the picked port, in both histories. */
static inline difference make_in_both(const call *c)
{
    keep_call(c, 1, 1);
    make_in(LEFT, c);
    make_in(RIGHT, c);
    if (!areas_agree())
        return AREAS_AFTER_BOTH;
    if (c->kind == POLL ? !polls_agree() : !answers_agree())
        return c->kind == POLL ? POLL_ANSWERS : CALL_ANSWERS;
    return space_is_kept(LEFT) && space_is_kept(RIGHT) ? NO_DIFFERENCE
                                                       : REPLY_SPACES;
}

/* The call, which names the picked port, in one history alone. */
static inline difference make_alone(int side, const call *c)
{
    keep_call(c, side == LEFT, side == RIGHT);
    make_in(side, c);
    return areas_agree() ? NO_DIFFERENCE : AREAS_AFTER_ONE;
}

/* Both histories again, from the new hubs on. */
static inline difference make_again(void)
{
    return is_made_again(LEFT) && is_made_again(RIGHT) ? NO_DIFFERENCE
                                                       : MADE_AGAIN;
}

#endif
