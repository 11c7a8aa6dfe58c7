/*
 * The C that stands in the text of grimholdi.h, as it stands there: the build
 * takes an_example.inc and a_stored_area.inc from the header.
 */

#include "grimholdi.h"
#include "grimholdi_port.h"

#include <string.h>

#include "check.h"

static void example(void)
{
#include "an_example.inc"

    CHECK(answer.number == GRIMHOLDI_ANSWER_DATA);
    CHECK(answer.length == 1 && reply[0] == 0x02);
    CHECK(area_len == 168);
    CHECK(grimholdi_port_state(area, area_len, 1) == GRIMHOLDI_STATE_DISABLED);
    CHECK(grimholdi_port_speed(area, area_len, 1) == GRIMHOLDI_SPEED_FULL);
}

static int is_area(const uint8_t *area, size_t area_len)
{
    return
#include "a_stored_area.inc"
    ;
}

/* Both ways that the header names. */
static int is_told_as(int an_area, const uint8_t *area, size_t area_len)
{
    return is_area(area, area_len) == an_area
           && (grimholdi_why_tick(area, area_len).kind == GRIMHOLDI_WHY_NONE)
              == an_area;
}

/*
 * The smallest hub, unconfigured and configured, docs/AREA.md.  As constants
 * they may stand in memory that can't be written.
 */
static const uint8_t unconfigured[156] = {1, 2, 50, 100, 2, 0, 0, 0};
static const uint8_t configured[156] = {
    1, 2, 50, 100, 2, 1, 0, 0,
    5, 1, 0, 0x01,
    1, 9, 2, 0, 5, 1, 0, 0
};

static int is_told_with(int an_area, size_t place, uint8_t value)
{
    uint8_t copy[sizeof configured];

    memcpy(copy, configured, sizeof copy);
    copy[place] = value;
    return is_told_as(an_area, copy, sizeof copy);
}

static void stored_areas(void)
{
    size_t length;
    int value;

    CHECK(is_told_as(1, unconfigured, sizeof unconfigured));
    for (length = 0; length < sizeof configured; length++)
        CHECK(is_told_as(0, configured, length));
    CHECK(is_told_as(1, configured, sizeof configured));
    CHECK(is_told_as(0, NULL, 0));
    for (value = 0; value < 256; value++) {
        CHECK(is_told_with(value == 1, 0, (uint8_t)value)); /* ports */
        CHECK(is_told_with(1, 2, (uint8_t)value));          /* power-good */
        CHECK(is_told_with((value & ~2) == 0, 4, (uint8_t)value));
        CHECK(is_told_with(value == 1, 5, (uint8_t)value)); /* configured */
        CHECK(is_told_with(value <= 2, 9, (uint8_t)value)); /* speed */
        CHECK(is_told_with(value < 64, 11, (uint8_t)value));
        CHECK(is_told_with(value < 128, 16, (uint8_t)value)); /* address */
        CHECK(is_told_with(value == 0, 155, (uint8_t)value));
    }
}

int main(void)
{
    example();
    stored_areas();
    return check_summary("the header's example");
}
