/* Scenes of the translator. */

#include "scenes.h"

#include "calls.h"
#include "grimholdi_port.h"
#include "takes.h"

static const computer *const first = &computers[0];
static const computer *const second = &computers[1];

/* The packet that is sent has to arrive. */
static void send_and_receive(const computer *of)
{
    const outcome packet = next_packet(of);

    deliver(of, TAKE, GRIMHOLDI_DIRECTION_IN, packet);
    receive(of, packet);
}

void long_takes(void)
{
    begin_take(first, LONG_TAKE);
    begin_take(second, LONG_TAKE);
    keep_busy(second, 1);
    read_takes();
}

static void nothing_there(const computer *of, uint8_t endpoint)
{
    launch(launched_in(of, endpoint));
    deliver(of, endpoint, GRIMHOLDI_DIRECTION_IN,
            handshake(GRIMHOLDI_RESULT_NAK));
}

/* Of three buffers a lane may hold two. */
void lane_limit(void)
{
    const outcome nothing = handshake(GRIMHOLDI_RESULT_NAK);

    wait_ms(1);
    say("Computer 0 asks for a take, the buttons and the level meter.");
    start_in(first, TAKE, GRIMHOLDI_ANSWER_DONE);
    start_in(first, BUTTONS, GRIMHOLDI_ANSWER_DONE);
    hub_dump_area();
    start_in(first, METER, GRIMHOLDI_ANSWER_NAK);
    say("`make why` tells the reason.  Computer 1 still gets a buffer.");
    start_in(second, TAKE, GRIMHOLDI_ANSWER_DONE);
    nothing_there(first, TAKE);
    nothing_there(first, BUTTONS);
    nothing_there(second, TAKE);
    complete(first, TAKE, GRIMHOLDI_DIRECTION_IN, nothing);
    complete(first, BUTTONS, GRIMHOLDI_DIRECTION_IN, nothing);
    complete(second, TAKE, GRIMHOLDI_DIRECTION_IN, nothing);
}

/*
 * A packet of `of` is on its way when its buffer is cleared and filled again,
 * by `by`.  The low side stays occupied until the packet has come.
 */
static void clear_and_refill(const computer *of, const computer *by)
{
    outcome late;

    start_in(of, TAKE, GRIMHOLDI_ANSWER_DONE);
    launch(launched_in(of, TAKE));
    late = next_packet(of);
    clear_tt_buffer(of, TAKE);
    end_take(of, "cleared");

    begin_take(by, PACKET);
    start_in(by, TAKE, GRIMHOLDI_ANSWER_DONE);
    launch(answered(GRIMHOLDI_ANSWER_NOT_NOW));
    say("The late reply comes, and is thrown away.");
    deliver(of, TAKE, GRIMHOLDI_DIRECTION_IN, late);
    receive(by, answered(GRIMHOLDI_ANSWER_NYET));
    launch(launched_in(by, TAKE));
    send_and_receive(by);
}

void clear_in_mid_transfer(void)
{
    begin_take(first, LONG_TAKE);
    read_packets();
    wait_ms(1);
    say("Computer 0 gives up its take and begins the next, in the same"
        " buffer.");
    clear_and_refill(first, first);
}

void clear_for_the_other(void)
{
    begin_take(second, PACKET);
    wait_ms(1);
    say("Computer 1 gives up its take, and computer 0 gets the buffer.");
    clear_and_refill(second, first);
}

/* Through the same buffer, which is old. */
void short_take(void)
{
    begin_take(first, 2 * PACKET);
    read_takes();
    begin_take(first, SHORT_TAKE);
    read_takes();
}

void out_beside_in(void)
{
    static const char gain[] = "gain 12 dB";
    outcome packet;

    begin_take(first, PACKET);
    wait_ms(1);
    say("Computer 0 sets the gain while it waits for a take.");
    start_in(first, TAKE, GRIMHOLDI_ANSWER_DONE);
    start_out(first, TAKE, gain);
    launch(launched_in(first, TAKE));
    packet = next_packet(first);
    deliver(first, TAKE, GRIMHOLDI_DIRECTION_IN, packet);
    complete(first, TAKE, GRIMHOLDI_DIRECTION_OUT,
             answered(GRIMHOLDI_ANSWER_NYET));
    launch(launched_out(first, TAKE, gain));
    deliver(first, TAKE, GRIMHOLDI_DIRECTION_OUT,
            handshake(GRIMHOLDI_RESULT_ACK));
    complete(first, TAKE, GRIMHOLDI_DIRECTION_OUT,
             handshake(GRIMHOLDI_RESULT_ACK));
    receive(first, packet);
}

/* A ResetTT empties its own lane alone; C_PORT_ENABLE is for port errors. */
void unplugged(void)
{
    outcome packet;

    begin_take(first, LONG_TAKE);
    begin_take(second, LONG_TAKE);
    read_packets();
    wait_ms(1);
    start_in(first, TAKE, GRIMHOLDI_ANSWER_DONE);
    start_in(second, TAKE, GRIMHOLDI_ANSWER_DONE);
    launch(launched_in(first, TAKE));
    packet = next_packet(first);
    say("Computer 0's packet is on its way; the studio's microphone is"
        " unplugged.");
    line_event(GRIMHOLDI_EVENT_DETACH, second->port);
    serve_changes(second, second->port, (uint8_t)(1u << second->port),
                  GRIMHOLDI_STATE_DISCONNECTED, 0,
                  GRIMHOLDI_CHANGE_CONNECTION);
    reset_tt(second);
    end_take(second, "unplugged");

    deliver(first, TAKE, GRIMHOLDI_DIRECTION_IN, packet);
    launch(answered(GRIMHOLDI_ANSWER_NAK));
    receive(first, packet);
    receive(second, answered(GRIMHOLDI_ANSWER_STALL));
    read_takes();
}
