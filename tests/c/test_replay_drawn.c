/*
 * The replay of blocks drawn at random, and of a block with each of its bytes
 * changed.
 */

#include "draw.h"
#include "replays.h"

/* Sessions drawn at random. */

/* Mostly small numbers that the hub takes; now and then others. */
static uint32_t draw_number(uint32_t below)
{
    return draw(50) == 0 ? draw(300) : draw(below);
}

static void add_drawn_request(void)
{
    switch (draw(8)) {
    case 0:
        add_configure((uint16_t)(draw(6) != 0));
        break;
    case 1:
        add_reset_tt(draw_number(2));
        break;
    case 2:
    case 3:
        add_clear_tt(draw_number(2), (uint16_t)draw(2));
        break;
    default:
        add_request(draw_number(2), GRIMHOLDI_TYPE_SET_PORT,
                    draw(2) ? GRIMHOLDI_REQUEST_SET_FEATURE
                            : GRIMHOLDI_REQUEST_CLEAR_FEATURE,
                    (uint16_t)draw(21), (uint16_t)draw(9));
        break;
    }
}

static void add_drawn_start(void)
{
    uint32_t pid = draw(2) ? GRIMHOLDI_PID_IN : GRIMHOLDI_PID_OUT;
    uint8_t bytes[65] = {'o', 'u', 't'};

    ADD(start_split, draw_number(2), pid, GRIMHOLDI_TRANSFER_BULK, draw(2),
        draw(2), draw_number(2), 1, bytes,
        pid == GRIMHOLDI_PID_OUT ? draw_number(20) % 66 : draw(60) == 0);
}

static void add_drawn_deliver(void)
{
    switch (draw(4)) {
    case 0:
        ADD(deliver, draw_number(15), NULL, 0);
        break;
    case 1:
        ADD(deliver, GRIMHOLDI_RESULT_ACK, NULL, 0);
        break;
    default:
        add_deliver("delivered");
        break;
    }
}

/* At most 96 bytes. */
static void add_drawn(void)
{
    switch (draw(20)) {
    case 0:
        add_drawn_request();
        break;
    case 1:
        ADD(poll, draw_number(2), draw(20) ? 64 : draw(65));
        break;
    case 2:
        ADD(line_event, draw_number(8), draw_number(8));
        break;
    case 3:
        add_one_byte(draw(20) ? 8 : 9);
        break;
    case 4: case 5: case 6: case 7:
        add_drawn_start();
        break;
    case 8: case 9: case 10:
        ADD(launch, draw(20) ? 64 : draw(65));
        break;
    case 11: case 12: case 13: case 14:
        add_drawn_deliver();
        break;
    default:
        ADD(complete_split, draw_number(2), draw_number(2), 1, draw_number(2),
            draw(20) ? 64 : draw(65));
        break;
    }
}

/* Counts which numbers were answered. */
static void count_numbers(unsigned long numbers[10])
{
    uint32_t at = 0;

    while (at < due.length) {
        numbers[due_answers[at]]++;
        at += 10u + due_answers[at + 1];
    }
}

static void drawn_sessions(uint32_t ports, uint32_t buffers, uint32_t blocks)
{
    unsigned long numbers[10] = {0};
    uint32_t stored = 0, answered = 0, gone = 0;
    uint32_t place;
    int i;

    new_hub(ports, buffers);
    for (place = 1; place <= blocks; place++) {
        grimholdi_replayed r;

        used = 0;
        if (area[5] == 0 && draw(4) != 0)
            add_configure(1);
        while (used <= USED_MAX - 96 && draw(40) != 0)
            add_drawn();
        put_finished(block, place, records, used);
        r = check_replay(place);
        stored += r.stored;
        answered += r.answered;
        gone += r.emptied;
        CHECK(stored == answered + gone + r.active);
        count_numbers(numbers);
    }
    CHECK(answered > blocks / 4 && gone > blocks / 4);
    for (i = 0; i < 10; i++)
        CHECK(numbers[i] > 0);
    used = 0;
}

/* One byte changed. */

/* Eight kinds of calls; a bus reset would hide what they leave. */
static void put_changeable(void)
{
    used = 0;
    add_start_in(1, 5);
    add_launch();
    add_deliver("abc");
    ADD(line_event, GRIMHOLDI_EVENT_OVER_CURRENT_ON, 1);
    ADD(poll, 0, 64);
    add_complete(1, 5);
    add_one_byte(8);
    add_clear_tt(1, 5);
    put_finished(block, 0x0102, records, used);
}

/* Refused so; no byte of the area or at the front of the answers changes. */
static void check_refused(uint8_t refusal)
{
    grimholdi_replayed r;

    memset(answers, 0xEE, 10);
    r = replay(0x0102);
    CHECK(is_result(r, GRIMHOLDI_ANSWER_DONE, refusal, 0, 0));
    CHECK(is_tally(r, 0, 0, 0));
    CHECK(area_is_saved() && answers[0] == 0xEE && answers[9] == 0xEE);
}

static void changed_bytes(void)
{
    unsigned long refused[6] = {0};
    uint32_t at, more;

    configured_hub(1, 2);
    save();
    for (at = 0; at < BLOCK; at++)
        for (more = 1; more < 256; more++) {
            uint8_t refusal;

            put_changeable();
            block[at] = (uint8_t)(block[at] + more);
            check_refused(GRIMHOLDI_REFUSED_CHECK);
            put_check(block);
            refusal = read_block(block, 0x0102);
            refused[refusal]++;
            if (refusal == GRIMHOLDI_REFUSED_NOT)
                check_replay(0x0102);
            else
                check_refused(refusal);
            restore();
        }
    /* At least: the number's two bytes, the unused ones, all other tags of the
       eight records, and the check's two bytes, which are made right again. */
    CHECK(refused[GRIMHOLDI_REFUSED_NUMBER] == 2 * 255);
    CHECK(refused[GRIMHOLDI_REFUSED_COUNT] > (USED_MAX - used) * 255);
    CHECK(refused[GRIMHOLDI_REFUSED_RECORD] > 8 * 246);
    CHECK(refused[GRIMHOLDI_REFUSED_NOT] > 2 * 255);
}

int main(void)
{
    lend_memory();
    changed_bytes();
    drawn = 1;
    drawn_sessions(4, 3, 120);
    drawn_sessions(1, 2, 120);
    drawn_sessions(7, 4, 120);
    free_memory();
    return check_summary("drawn replays");
}
