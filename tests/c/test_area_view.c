/*
 * The tool's reading of an area: the fields are those of docs/AREA.md, and a
 * fault is named exactly where the library refuses the area.
 */

#include "bench_hub.h"

#include "../../tools/why/area_fault.h"
#include "../../tools/why/area_view.h"

static uint8_t *buffer_at(uint32_t number)
{
    return area + 8 + 4 * area[0] + 72 * number;
}

/* Writes head, ports and the first bytes of each buffer. */
static void write_area(const uint8_t head[8], const uint8_t *ports,
                       const uint8_t buffers[][11])
{
    uint32_t i;

    new_hub(head[0], head[1]);
    memcpy(area, head, 8);
    memcpy(area + 8, ports, 4u * head[0]);
    for (i = 0; i < head[1]; i++)
        memcpy(buffer_at(i), buffers[i], 11);
}

/* Every state, speed and change bit; all four statuses; buffer 0 runs. */
static void largest_area(void)
{
    static const uint8_t head[8] = {7, 4, 0x32, 0x64, 0xFE, 1, 1, 0};
    static const uint8_t ports[28] = {
        1, 0, 0, 0x28,  2, 0, 0, 0x01,  3, 0, 0, 0x02,  4, 1, 14, 0x10,
        5, 2, 0, 0x00,  6, 1, 0, 0x1F,  7, 2, 21, 0x04
    };
    static const uint8_t buffers[4][11] = {
        {1, 1, 2, 3, 127, 15, 255, 3, 0x61, 0x62, 0x63},
        {2, 9, 2, 4, 5, 1, 11, 2, 0x64, 0x65, 0},
        {3, 13, 0, 1, 0, 0, 2, 0, 0, 0, 0},
        {0, 0, 0, 0, 0, 0, 0, 0, 0, 0, 0}
    };

    write_area(head, ports, buffers);
}

/* Both lanes with one address; the limit and two places are near. */
static void shared_area(void)
{
    static const uint8_t head[8] = {4, 3, 0x32, 0x64, 0x1E, 1, 0, 0};
    static const uint8_t ports[16] = {
        1, 0, 0, 0,  1, 0, 0, 0,  5, 1, 0, 0,  4, 0, 0, 0
    };
    static const uint8_t buffers[3][11] = {
        {2, 9, 2, 0, 5, 1, 3, 3, 0x11, 0x22, 0x33},
        {1, 9, 2, 0, 6, 1, 1, 0, 0, 0, 0},
        {1, 9, 2, 4, 5, 1, 2, 0, 0, 0, 0}
    };

    write_area(head, ports, buffers);
}

/* A pending SETUP runs; its payload has zeros. */
static void setup_area(void)
{
    static const uint8_t head[8] = {2, 2, 0, 255, 0, 1, 1, 1};
    static const uint8_t ports[8] = {7, 0, 3, 0x3F,  2, 0, 0, 0};
    static const uint8_t buffers[2][11] = {
        {2, 1, 0, 4, 9, 0, 14, 0, 0, 0, 0},
        {1, 13, 0, 0, 9, 0, 0, 8, 0x80, 0x06, 0}
    };

    write_area(head, ports, buffers);
}

/* Unconfigured, abandoned, with a full payload. */
static void smallest_area(void)
{
    static const uint8_t head[8] = {1, 2, 1, 2, 2, 0, 2, 0};
    static const uint8_t ports[4] = {0, 0, 0, 0x20};
    static const uint8_t buffers[2][11] = {
        {3, 9, 0, 2, 64, 7, 3, 64, 1, 2, 3},
        {1, 1, 0, 2, 64, 7, 0, 0, 0, 0, 0}
    };

    write_area(head, ports, buffers);
    memset(buffer_at(0) + 8, 0xA5, 64);
}

static int is_refused(const uint8_t *bytes, size_t length)
{
    grimholdi_reason reason = grimholdi_why_tick(bytes, length);

    return reason.kind == GRIMHOLDI_WHY_NUMBER
           && reason.value == GRIMHOLDI_ANSWER_OUTSIDE;
}

/* A fault is named exactly if the area is refused; 1 if so. */
static int names_rightly(const uint8_t *bytes, size_t length)
{
    char fault[FAULT_LENGTH] = "";
    int named_one = area_fault(bytes, length, fault);

    return named_one == is_refused(bytes, length)
           && named_one == (fault[0] != '\0');
}

static void every_value(void)
{
    size_t i;
    int value;

    CHECK(!is_refused(area, area_len));
    CHECK(names_rightly(area, area_len));
    for (i = 0; i < area_len; i++) {
        uint8_t kept = area[i];

        for (value = 0; value < 256; value++) {
            area[i] = (uint8_t)value;
            CHECK(names_rightly(area, area_len));
        }
        area[i] = kept;
    }
}

/* Lengths beyond the area, too, with zeros behind it. */
static void every_length(void)
{
    size_t length;

    for (length = 0; length <= GRIMHOLDI_AREA_LENGTH_MAX + 8; length++) {
        uint8_t *copy = allocate(length + (length == 0));

        memset(copy, 0, length);
        memcpy(copy, area, length < area_len ? length : area_len);
        CHECK(is_refused(copy, length) == (length != area_len));
        CHECK(names_rightly(copy, length));
        free(copy);
    }
}

/* The place of the byte with this number, payloads left out. */
static size_t place_of(size_t number)
{
    size_t before = 8 + 4u * area[0];

    if (number < before)
        return number;
    return before + (number - before) / 8 * 72 + (number - before) % 8;
}

static void every_value_of_two(size_t one, size_t other)
{
    static const uint8_t values[] = {0, 1, 2, 3, 4, 9, 11, 13, 14, 65};
    uint8_t kept = area[one], other_kept = area[other];
    size_t i, j;

    for (i = 0; i < sizeof values; i++)
        for (j = 0; j < sizeof values; j++) {
            area[one] = values[i];
            area[other] = values[j];
            CHECK(names_rightly(area, area_len));
        }
    area[one] = kept;
    area[other] = other_kept;
}

/* Two bytes at once, but for the numbers of ports and buffers. */
static void pairs_of_bytes(void)
{
    size_t count = 8 + 4u * area[0] + 8u * area[1];
    size_t i, j;

    for (i = 2; i < count; i++)
        for (j = 2; j < i; j++)
            every_value_of_two(place_of(i), place_of(j));
}

static int port_is(const port_view *port, int state, int speed, int ticks,
                   int changes, int over_current)
{
    return port->state == state && port->speed == speed
           && port->ticks == ticks && port->changes == changes
           && port->over_current == over_current;
}

static void viewed_head_and_ports(void)
{
    area_view view;

    largest_area();
    view = view_area(area);
    CHECK(view.ports == 7 && view.buffers == 4);
    CHECK(view.power_good == 0x32 && view.current == 0x64);
    CHECK(view.removable == 0xFE && view.configured == 1);
    CHECK(view.low_side == LOW_SIDE_RUNNING && view.running == 0);
    CHECK(port_is(&view.port[0], GRIMHOLDI_STATE_POWERED_OFF, 0, 0,
                  GRIMHOLDI_CHANGE_OVER_CURRENT, 1));
    CHECK(port_is(&view.port[1], GRIMHOLDI_STATE_DISCONNECTED, 0, 0,
                  GRIMHOLDI_CHANGE_CONNECTION, 0));
    CHECK(port_is(&view.port[2], GRIMHOLDI_STATE_DISABLED,
                  GRIMHOLDI_SPEED_LOW, 0, GRIMHOLDI_CHANGE_ENABLE, 0));
    CHECK(port_is(&view.port[3], GRIMHOLDI_STATE_RESETTING,
                  GRIMHOLDI_SPEED_FULL, 14, GRIMHOLDI_CHANGE_RESET, 0));
    CHECK(port_is(&view.port[4], GRIMHOLDI_STATE_ENABLED,
                  GRIMHOLDI_SPEED_HIGH, 0, 0, 0));
    CHECK(port_is(&view.port[5], GRIMHOLDI_STATE_SUSPENDED,
                  GRIMHOLDI_SPEED_FULL, 0, 0x1F, 0));
    CHECK(port_is(&view.port[6], GRIMHOLDI_STATE_RESUMING,
                  GRIMHOLDI_SPEED_HIGH, 21, GRIMHOLDI_CHANGE_SUSPEND, 0));
    setup_area();
    view = view_area(area);
    CHECK(view.running == 1 && view.power_good == 0 && view.current == 255);
}

static int key_is(const buffer_view *buffer, int lane, int address,
                  int endpoint, int direction)
{
    return buffer->lane == lane && buffer->address == address
           && buffer->endpoint == endpoint && buffer->direction == direction;
}

static void viewed_buffers(void)
{
    area_view view;
    const buffer_view *buffer = view.buffer;

    largest_area();
    view = view_area(area);
    CHECK(buffer->status == STATUS_PENDING && buffer->place == 255);
    CHECK(key_is(buffer, 0, 127, 15, GRIMHOLDI_DIRECTION_OUT));
    CHECK(buffer->pid == GRIMHOLDI_PID_OUT
          && buffer->transfer == GRIMHOLDI_TRANSFER_BULK);
    CHECK(buffer->low_speed == 1 && buffer->toggle == 1);
    CHECK(buffer->payload_length == 3
          && memcmp(buffer->payload, "abc", 3) == 0);
    buffer++;
    CHECK(buffer->status == STATUS_READY
          && buffer->result == GRIMHOLDI_RESULT_DATA1);
    CHECK(key_is(buffer, 1, 5, 1, GRIMHOLDI_DIRECTION_IN));
    CHECK(buffer->low_speed == 0 && buffer->toggle == 0);
    CHECK(buffer->payload_length == 2
          && memcmp(buffer->payload, "de", 2) == 0);
    buffer++;
    CHECK(buffer->status == STATUS_OLD
          && buffer->result == GRIMHOLDI_RESULT_ACK);
    CHECK(key_is(buffer, 0, 0, 0, GRIMHOLDI_DIRECTION_OUT));
    CHECK(buffer->pid == GRIMHOLDI_PID_SETUP
          && buffer->transfer == GRIMHOLDI_TRANSFER_CONTROL);
    CHECK(buffer->low_speed == 1 && buffer->toggle == 0);
    buffer++;
    CHECK(buffer->status == STATUS_EMPTY);
    CHECK(buffer_is_held(&view.buffer[0]) && buffer_is_held(&view.buffer[1]));
    CHECK(!buffer_is_held(&view.buffer[2])
          && !buffer_is_held(&view.buffer[3]));
}

int main(void)
{
    static void (*const areas[])(void) = {
        largest_area, shared_area, setup_area, smallest_area
    };
    size_t i;

    viewed_head_and_ports();
    viewed_buffers();
    for (i = 0; i < sizeof areas / sizeof *areas; i++) {
        areas[i]();
        every_value();
        every_length();
        pairs_of_bytes();
    }
    free_hub();
    return check_summary("area view");
}
