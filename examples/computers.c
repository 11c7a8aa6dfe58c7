#include "computers.h"

#include "calls.h"
#include "grimholdi_names.h"
#include "grimholdi_setup.h"

#include <stdio.h>
#include <string.h>

const computer computers[COMPUTERS] = {
    {0, 1, "concert room"},
    {1, 2, "studio"}
};

enum { WORDS = 64 }; /* space for the words of a call */

static const char *feature_name(uint32_t feature)
{
    switch (feature) {
    case GRIMHOLDI_PORT_SUSPEND: return "PORT_SUSPEND";
    case GRIMHOLDI_PORT_RESET:   return "PORT_RESET";
    case GRIMHOLDI_PORT_POWER:   return "PORT_POWER";
    default:
        return grimholdi_change_name(
            1u << (feature - GRIMHOLDI_C_PORT_CONNECTION));
    }
}

static outcome request(const computer *from, const uint8_t *setup,
                       const char *words)
{
    const outcome is = got(hub_control(from->lane, setup));

    printf("%4u R C%c:%u s %02x %02x %02x%02x %02x%02x %02x%02x: ", now,
           setup[0] & 0x80 ? 'i' : 'o', from->lane, setup[0], setup[1],
           setup[3], setup[2], setup[5], setup[4], setup[7], setup[6]);
    print_outcome(is);
    printf("  %s\n", words);
    return is;
}

static void set_request(const computer *from, const uint8_t *setup,
                        const char *words)
{
    check(words, "", answered(GRIMHOLDI_ANSWER_DONE),
          request(from, setup, words));
}

/* Ports. */

void wait_ms(unsigned ms)
{
    unsigned i;

    for (i = 0; i < ms; i++) {
        now++;
        check("tick", "", answered(GRIMHOLDI_ANSWER_DONE), got(hub_tick()));
    }
}

void line_event(uint32_t event, uint32_t port)
{
    const outcome is = got(hub_line_event(event, port));

    printf("%4u E port %u %s: ", now, (unsigned)port,
           grimholdi_event_name(event));
    print_outcome(is);
    printf("\n");
    check("line event", grimholdi_event_name(event),
          answered(GRIMHOLDI_ANSWER_DONE), is);
}

void set_configuration(const computer *from)
{
    uint8_t setup[GRIMHOLDI_SETUP_LENGTH];

    grimholdi_setup_set_configuration(setup, 1);
    set_request(from, setup, "SetConfiguration 1");
}

/* SetPortFeature or ClearPortFeature, as `request` says. */
static void port_request(const computer *from, const uint8_t *setup,
                         const char *request, uint32_t feature, uint32_t port)
{
    char words[WORDS];

    snprintf(words, sizeof words, "%s %s, port %u", request,
             feature_name(feature), (unsigned)port);
    set_request(from, setup, words);
}

void set_port_feature(const computer *from, uint32_t feature, uint32_t port)
{
    uint8_t setup[GRIMHOLDI_SETUP_LENGTH];

    grimholdi_setup_set_port_feature(setup, feature, port);
    port_request(from, setup, "SetPortFeature", feature, port);
}

void clear_port_feature(const computer *from, uint32_t feature, uint32_t port)
{
    uint8_t setup[GRIMHOLDI_SETUP_LENGTH];

    grimholdi_setup_clear_port_feature(setup, feature, port);
    port_request(from, setup, "ClearPortFeature", feature, port);
}

void poll_changes(const computer *from, uint8_t bitmap)
{
    const outcome is = got(hub_poll(from->lane));
    const outcome due = bitmap == 0 ? answered(GRIMHOLDI_ANSWER_NAK)
                                    : data(0, &bitmap, 1);

    if (is.answer.number != GRIMHOLDI_ANSWER_NAK) {
        printf("%4u P Ii:%u: ", now, from->lane);
        print_outcome(is);
        printf("  ");
        print_bitmap(is);
        printf("\n");
    }
    if (same(due, is))
        return;
    print_unexpected("poll", "");
    printf("expected ");
    print_bitmap(due);
    printf(", got ");
    print_bitmap(is);
    printf("\n");
}

/* The status bits of a state at full speed. */
static unsigned status_of(uint8_t state)
{
    const unsigned powered = GRIMHOLDI_STATUS_POWER;
    const unsigned attached = powered | GRIMHOLDI_STATUS_CONNECTION;

    switch (state) {
    case GRIMHOLDI_STATE_DISCONNECTED:
        return powered;
    case GRIMHOLDI_STATE_DISABLED:
        return attached;
    case GRIMHOLDI_STATE_RESETTING:
        return attached | GRIMHOLDI_STATUS_RESET;
    case GRIMHOLDI_STATE_ENABLED:
        return attached | GRIMHOLDI_STATUS_ENABLE;
    default: /* Powered-off */
        return 0;
    }
}

void port_shows(const computer *from, uint32_t port, uint8_t state,
                unsigned beside, unsigned changes)
{
    const unsigned status = status_of(state) | beside;
    const uint8_t bytes[4] = {(uint8_t)status, (uint8_t)(status >> 8),
                              (uint8_t)changes, (uint8_t)(changes >> 8)};
    const outcome due = data(0, bytes, sizeof bytes);
    uint8_t setup[GRIMHOLDI_SETUP_LENGTH];
    char words[WORDS];
    outcome is;

    grimholdi_setup_get_port_status(setup, port);
    snprintf(words, sizeof words, "GetPortStatus, port %u", (unsigned)port);
    is = request(from, setup, words);
    printf("       port %u ", (unsigned)port);
    print_status(hub_port_state(port), is);
    printf("\n");
    if (same(due, is) && hub_port_state(port) == state)
        return;
    print_unexpected(words, "");
    printf("expected ");
    print_status(state, due);
    printf(", got ");
    print_status(hub_port_state(port), is);
    printf("\n");
}

void serve_changes(const computer *from, uint32_t port, uint8_t bitmap,
                   uint8_t state, unsigned beside, unsigned changes)
{
    unsigned bit;

    poll_changes(from, bitmap);
    port_shows(from, port, state, beside, changes);
    for (bit = 0; bit < 5; bit++)
        if (changes >> bit & 1)
            clear_port_feature(from, GRIMHOLDI_C_PORT_CONNECTION + bit, port);
}

/* The translator. */

enum { KEY = 24 }; /* space for a key as text */

static void key_text(char *text, const computer *of, uint8_t endpoint,
                     uint8_t direction)
{
    snprintf(text, KEY, "B%c:%u:%03u:%u",
             direction == GRIMHOLDI_DIRECTION_IN ? 'i' : 'o', of->lane,
             ADDRESS, endpoint);
}

void clear_tt_buffer(const computer *from, uint8_t endpoint)
{
    uint8_t setup[GRIMHOLDI_SETUP_LENGTH];

    grimholdi_setup_clear_tt_buffer(setup, ADDRESS, endpoint,
                                    GRIMHOLDI_DIRECTION_IN,
                                    GRIMHOLDI_TRANSFER_BULK);
    set_request(from, setup, "ClearTTBuffer");
}

void reset_tt(const computer *from)
{
    uint8_t setup[GRIMHOLDI_SETUP_LENGTH];

    grimholdi_setup_reset_tt(setup);
    set_request(from, setup, "ResetTT");
}

void empty_buffers(void)
{
    uint8_t setup[GRIMHOLDI_SETUP_LENGTH];
    int i;

    grimholdi_setup_reset_tt(setup);
    for (i = 0; i < COMPUTERS; i++)
        check("ResetTT", "", answered(GRIMHOLDI_ANSWER_DONE),
              got(hub_control(computers[i].lane, setup)));
}

static void start_split(const computer *from, uint8_t pid, uint8_t endpoint,
                        const char *text, uint8_t number)
{
    const uint8_t *bytes = (const uint8_t *)text;
    const size_t length = strlen(text);
    const outcome is = got(hub_start_split(
        from->lane, pid, GRIMHOLDI_TRANSFER_BULK, 0, 0, ADDRESS, endpoint,
        bytes, length));
    char key[KEY];

    key_text(key, from, endpoint, pid == GRIMHOLDI_PID_IN);
    printf("%4u S %s", now, key);
    if (length > 0) {
        printf(" %u ", (unsigned)length);
        print_text(bytes, length);
    }
    printf(": ");
    print_outcome(is);
    printf("\n");
    check("start-split", key, answered(number), is);
}

void start_in(const computer *from, uint8_t endpoint, uint8_t number)
{
    start_split(from, GRIMHOLDI_PID_IN, endpoint, "", number);
}

void start_out(const computer *from, uint8_t endpoint, const char *text)
{
    start_split(from, GRIMHOLDI_PID_OUT, endpoint, text,
                GRIMHOLDI_ANSWER_DONE);
}

static outcome launched(const computer *of, uint8_t pid, uint8_t endpoint,
                        const char *text)
{
    outcome due = data(pid, (const uint8_t *)text, strlen(text));

    due.answer.transfer = GRIMHOLDI_TRANSFER_BULK;
    due.answer.lane = of->lane;
    due.answer.address = ADDRESS;
    due.answer.endpoint = endpoint;
    due.answer.direction = pid == GRIMHOLDI_PID_IN;
    return due;
}

outcome launched_in(const computer *of, uint8_t endpoint)
{
    return launched(of, GRIMHOLDI_PID_IN, endpoint, "");
}

outcome launched_out(const computer *of, uint8_t endpoint, const char *text)
{
    return launched(of, GRIMHOLDI_PID_OUT, endpoint, text);
}

void launch(outcome due)
{
    const outcome is = got(hub_launch());

    printf("%4u L: ", now);
    print_outcome(is);
    printf("\n");
    check("launch", "", due, is);
}

void deliver(const computer *to, uint8_t endpoint, uint8_t direction,
             outcome result)
{
    const size_t length = result.answer.length;
    const outcome is = got(hub_deliver(result.answer.pid, result.bytes,
                                       length));
    char key[KEY];

    key_text(key, to, endpoint, direction);
    printf("%4u D %s %s", now, key, grimholdi_result_name(result.answer.pid));
    if (length > 0) {
        printf(" %u ", (unsigned)length);
        print_text(result.bytes, length);
    }
    printf(": ");
    print_outcome(is);
    printf("\n");
    check("deliver", key, answered(GRIMHOLDI_ANSWER_DONE), is);
}

outcome complete(const computer *from, uint8_t endpoint, uint8_t direction,
                 outcome due)
{
    const outcome is = got(hub_complete_split(from->lane, ADDRESS, endpoint,
                                              direction));
    char key[KEY];

    key_text(key, from, endpoint, direction);
    printf("%4u C %s: ", now, key);
    print_outcome(is);
    printf("\n");
    check("complete-split", key, due, is);
    return is;
}
