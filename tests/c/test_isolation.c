/*
 * One port cannot disturb another (C-21).
 *
 *   test_isolation [CALLS [SEED]]
 *
 * Two histories from equal new hubs, drawn at random, become equal when each
 * call naming the picked port is struck out.  At each matching point the two
 * areas are the same but for that port's four bytes, and each call in both is
 * answered alike, but for that port's bit of a poll.  At a hub's end each of
 * its histories is made again alone, and gives and leaves the same: no state
 * outside the area joins them.  CALLS counts the calls that are in both.
 *
 * The same is then tried with disturbances planted behind the library's calls.
 * Each has to be found, by the comparison that is there for it.
 */

#include "poll_disturbances.h"
#include "tally.h"

#include <errno.h>

/*
 * Fewer calls may miss a state or a planted disturbance; from so many on, all
 * that the tally lists has to be met, and each that is planted found.
 */
enum { TELLING_CALLS = 20000 };

/* Histories. */

enum { PICKS = 28 }; /* numbers of ports, each with each of its ports */

/* The hubs go through all picks in turn, with any number of buffers. */
static difference new_hubs(tally *t, uint32_t first_pick)
{
    uint32_t pick = (uint32_t)((first_pick + t->hubs) % PICKS);
    uint32_t buffers = GRIMHOLDI_BUFFERS_MIN + draw(3);
    uint32_t ports = 1;
    difference found;

    while (pick >= ports)
        pick -= ports++;
    picked = pick + 1;
    found = new_histories(ports, buffers);
    count_hub(t);
    return found;
}

/* One call, in both histories or in one alone. */
static difference step(tally *t)
{
    int side = (int)draw(2);
    difference found;
    call c;

    take(side);
    c = one_in(3) ? draw_naming(picked) : draw_call();
    if (one_in(8))
        spoil(&c);
    if (names_port(&c, picked)) {
        found = make_alone(side, &c);
        count_alone(t, side);
    } else {
        found = make_in_both(&c);
        count_both(t, &c);
    }
    count_point(t);
    t->last = call_names[c.kind];
    return found;
}

static void report(difference found, const tally *t)
{
    printf("isolation: %s differ; hub %lu, %lu calls in both, port %lu of %lu "
           "picked, %s, last answers %u and %u\n", difference_names[found],
           t->hubs, t->both, (unsigned long)picked,
           (unsigned long)histories[LEFT].area[HEAD_PORTS], t->last,
           histories[LEFT].answer.number, histories[RIGHT].answer.number);
    if (first_apart() < area_len)
        printf("isolation: byte %lu of the areas differs first\n",
               (unsigned long)first_apart());
}

/* One hub: its histories side by side, then each of them alone. */
static difference live(size_t life, unsigned long calls, tally *t)
{
    difference found = NO_DIFFERENCE;

    while (found == NO_DIFFERENCE && kept_count < life && t->both < calls)
        found = step(t);
    return found == NO_DIFFERENCE ? make_again() : found;
}

/* Hubs live for some hundred calls; behind the first picks for thousands. */
static difference run(unsigned long calls, uint64_t seed, tally *t)
{
    difference found = NO_DIFFERENCE;
    uint32_t first_pick;

    memset(t, 0, sizeof *t);
    drawn = seed;
    first_pick = draw(PICKS);
    while (found == NO_DIFFERENCE && t->both < calls) {
        size_t life = 300 + draw(t->hubs < PICKS ? 600 : KEPT_MAX - 299);

        found = new_hubs(t, first_pick);
        if (found == NO_DIFFERENCE)
            found = live(life, calls, t);
    }
    if (found != NO_DIFFERENCE && planted == NULL)
        report(found, t);
    free_histories();
    return found;
}

static void check_undisturbed(unsigned long calls, uint64_t seed)
{
    tally t;

    planted = NULL;
    CHECK(run(calls, seed, &t) == NO_DIFFERENCE);
    if (calls >= TELLING_CALLS)
        check_met(&t);
    printf("isolation: %lu calls in both, %lu calls in all, each made again; "
           "the picked port different at %lu of %lu matching points; %lu "
           "polls 1 against 3\n",
           t.both, 2 * t.both + t.alone, t.apart, t.points,
           t.polls[DATA_NAK] + t.polls[NAK_DATA]);
}

/* Planted disturbances, each with what it makes differ. */
static const struct {
    disturbance *disturb;
    difference due;
} plants[] = {
    {spread_over_current, AREAS_AFTER_ONE},
    {empty_at_detach, AREAS_AFTER_ONE}, {swap_toggle, AREAS_AFTER_ONE},
    {free_low_side, AREAS_AFTER_ONE},   {restart_resets, AREAS_AFTER_ONE},
    {clear_before, AREAS_AFTER_ONE},    {spread_speed, AREAS_AFTER_ONE},
    {take_timers_back, AREAS_AFTER_BOTH},
    {give_status_of_1, CALL_ANSWERS},   {launch_other_speed, CALL_ANSWERS},
    {give_every_bit, POLL_ANSWERS},     {leave_out_port_1, POLL_ANSWERS},
    {bring_port_2, POLL_ANSWERS},       {give_bit_0, POLL_ANSWERS},
    {hold_one_back, POLL_ANSWERS},      {hold_only_back, POLL_ANSWERS},
    {give_no_bit, POLL_ANSWERS},        {give_pid, POLL_ANSWERS},
    {give_nak_pid, POLL_ANSWERS},       {refuse_as_silent, POLL_ANSWERS},
    {write_behind, REPLY_SPACES},
    {forget_changes, MADE_AGAIN},       {launch_other_toggle, MADE_AGAIN},
    {set_old_toggles, MADE_AGAIN}
};

enum { PLANTS = sizeof plants / sizeof plants[0] };

/* Returns whether it is found. */
static int check_plant(size_t plant, unsigned long calls, uint64_t seed)
{
    difference due = plants[plant].due;
    difference found;
    tally t;

    planted = plants[plant].disturb;
    found = run(calls, seed, &t);
    if (found == NO_DIFFERENCE && calls < TELLING_CALLS)
        return 0;
    CHECK(found == due);
    if (found != due)
        printf("isolation: disturbance %lu: %s differ, due were %s\n",
               (unsigned long)plant, difference_names[found],
               difference_names[due]);
    return found != NO_DIFFERENCE;
}

static void check_disturbed(unsigned long calls, uint64_t seed)
{
    unsigned found = 0;
    size_t plant;

    for (plant = 0; plant < PLANTS; plant++)
        found += check_plant(plant, calls, seed);
    printf("isolation: %u of %u planted disturbances found\n", found,
           (unsigned)PLANTS);
}

/* Which calls name a port. */

/* A hub that is configured answers 2 to a port request that names none. */
static void check_naming(uint8_t type, uint8_t code, uint16_t value,
                         uint16_t index, uint16_t length)
{
    call c = request_of(type, code, value, index, length);
    uint32_t due = 0; /* the port named, or none */
    uint32_t port;

    c.reply_len = GRIMHOLDI_REPLY_LENGTH;
    for (port = 1; port <= area[HEAD_PORTS]; port++)
        due += names_port(&c, port) ? port : 0;
    CHECK(due == 0 || due == index);
    CHECK((make(&c).number == GRIMHOLDI_ANSWER_STALL) == (due == 0));
}

static void check_naming_of(uint8_t type, uint8_t code, uint16_t value)
{
    static const uint16_t indexes[] = {0, 1, 2, 3, 4, 5, 7, 255, 0x0101,
                                       0x8002, 0xFFFF};
    static const uint16_t lengths[] = {0, 1, 4, 5, 0x0400, 0x0104};
    const size_t index_count = sizeof indexes / sizeof indexes[0];
    const size_t length_count = sizeof lengths / sizeof lengths[0];
    size_t i;

    for (i = 0; i < index_count * length_count; i++)
        check_naming(type, code, value, indexes[i % index_count],
                     lengths[i / index_count]);
}

static void port_requests_name_their_port(void)
{
    uint16_t value;
    uint16_t high;

    configured_hub(4, 2);
    for (value = 0; value < 32; value++)
        for (high = 0; high <= 0x0100; high += 0x0100) {
            check_naming_of(0xA3, 0x00, value | high);
            check_naming_of(0x23, 0x01, value | high);
            check_naming_of(0x23, 0x03, value | high);
        }
}

static void naming_at_the_edges(void)
{
    call c = event_at(FAR_NUMBER, 2);

    CHECK(names_port(&c, 2) && !names_port(&c, 1));
    c = port_request_of(&port_rows[0], 2);
    c.lane = FAR_NUMBER;
    c.reply_len = 0;
    CHECK(names_port(&c, 2) && !names_port(&c, 1));
    c.length = 7;
    CHECK(!names_port(&c, 2));
    c.length = 9;
    CHECK(!names_port(&c, 2));
    c = request_of(0x23, 0x09, 0, 1, 0); /* ResetTT, index 1 */
    CHECK(!names_port(&c, 1));
    c = request_of(0x23, 0x08, 2, 1, 0); /* ClearTTBuffer, index 1 */
    CHECK(!names_port(&c, 1));
    c = event_at(GRIMHOLDI_EVENT_WAKE, 0x0102);
    CHECK(!names_port(&c, 2));
    c.kind = TICK;
    c.port = 2;
    CHECK(!names_port(&c, 2));
}

/* Arguments. */

static int read_number(const char *text, unsigned long *number)
{
    char *end;

    if (*text < '0' || *text > '9')
        return 0;
    errno = 0;
    *number = strtoul(text, &end, 10);
    return *end == '\0' && errno == 0;
}

int main(int argc, char **argv)
{
    unsigned long calls = TELLING_CALLS;
    unsigned long seed = 1;

    if (argc > 3 || (argc > 1 && !read_number(argv[1], &calls))
        || (argc > 2 && !read_number(argv[2], &seed)) || calls == 0) {
        fprintf(stderr, "usage: test_isolation [CALLS [SEED]]\n");
        return 2;
    }
    port_requests_name_their_port();
    naming_at_the_edges();
    free_hub();
    check_undisturbed(calls, seed);
    check_disturbed(calls, seed);
    return check_summary("isolation");
}
