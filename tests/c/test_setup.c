/*
 * grimholdi_setup.h: each packet is the bytes of document 01's table, the hub
 * serves it, and a number that no request has is STALL and changes nothing.
 */

#include "bench_hub.h"
#include "grimholdi_setup.h"

enum { PORTS = 4, BUFFERS = 4 };

static uint8_t setup[GRIMHOLDI_SETUP_LENGTH];

/* The packet that was built is these eight bytes. */
static int is_packet(const char *bytes)
{
    return memcmp(setup, bytes, 8) == 0;
}

/* The hub's answer to the packet that was built. */
static uint8_t sent(void)
{
    return grimholdi_control(area, area_len, 0, setup, sizeof setup, reply,
                             GRIMHOLDI_REPLY_LENGTH).number;
}

/* Refused, and nothing changed. */
static int is_stall(void)
{
    save();
    return sent() == GRIMHOLDI_ANSWER_STALL && area_is_saved()
           && reply_is_saved();
}

static void whole_hub_packets(void)
{
    grimholdi_setup_set_configuration(setup, 0);
    CHECK(is_packet("\x00\x09\x00\x00\x00\x00\x00\x00"));
    grimholdi_setup_set_configuration(setup, 1);
    CHECK(is_packet("\x00\x09\x01\x00\x00\x00\x00\x00"));
    grimholdi_setup_get_configuration(setup);
    CHECK(is_packet("\x80\x08\x00\x00\x00\x00\x01\x00"));
    grimholdi_setup_get_hub_descriptor(setup, 0);
    CHECK(is_packet("\xA0\x06\x00\x29\x00\x00\x00\x00"));
    grimholdi_setup_get_hub_descriptor(setup, 9);
    CHECK(is_packet("\xA0\x06\x00\x29\x00\x00\x09\x00"));
    grimholdi_setup_get_hub_descriptor(setup, 0x1234);
    CHECK(is_packet("\xA0\x06\x00\x29\x00\x00\x34\x12"));
    grimholdi_setup_get_hub_descriptor(setup, 65535);
    CHECK(is_packet("\xA0\x06\x00\x29\x00\x00\xFF\xFF"));
    grimholdi_setup_get_hub_status(setup);
    CHECK(is_packet("\xA0\x00\x00\x00\x00\x00\x04\x00"));
    grimholdi_setup_clear_hub_feature(setup, 0);
    CHECK(is_packet("\x20\x01\x00\x00\x00\x00\x00\x00"));
    grimholdi_setup_clear_hub_feature(setup, 1);
    CHECK(is_packet("\x20\x01\x01\x00\x00\x00\x00\x00"));
}

static void port_packets(void)
{
    grimholdi_setup_get_port_status(setup, 1);
    CHECK(is_packet("\xA3\x00\x00\x00\x01\x00\x04\x00"));
    grimholdi_setup_get_port_status(setup, 7);
    CHECK(is_packet("\xA3\x00\x00\x00\x07\x00\x04\x00"));

    grimholdi_setup_set_port_feature(setup, GRIMHOLDI_PORT_SUSPEND, 1);
    CHECK(is_packet("\x23\x03\x02\x00\x01\x00\x00\x00"));
    grimholdi_setup_set_port_feature(setup, GRIMHOLDI_PORT_RESET, 2);
    CHECK(is_packet("\x23\x03\x04\x00\x02\x00\x00\x00"));
    grimholdi_setup_set_port_feature(setup, GRIMHOLDI_PORT_POWER, 7);
    CHECK(is_packet("\x23\x03\x08\x00\x07\x00\x00\x00"));

    grimholdi_setup_clear_port_feature(setup, GRIMHOLDI_PORT_ENABLE, 1);
    CHECK(is_packet("\x23\x01\x01\x00\x01\x00\x00\x00"));
    grimholdi_setup_clear_port_feature(setup, GRIMHOLDI_PORT_SUSPEND, 2);
    CHECK(is_packet("\x23\x01\x02\x00\x02\x00\x00\x00"));
    grimholdi_setup_clear_port_feature(setup, GRIMHOLDI_PORT_POWER, 3);
    CHECK(is_packet("\x23\x01\x08\x00\x03\x00\x00\x00"));
    grimholdi_setup_clear_port_feature(setup, GRIMHOLDI_C_PORT_CONNECTION, 4);
    CHECK(is_packet("\x23\x01\x10\x00\x04\x00\x00\x00"));
    grimholdi_setup_clear_port_feature(setup, GRIMHOLDI_C_PORT_ENABLE, 5);
    CHECK(is_packet("\x23\x01\x11\x00\x05\x00\x00\x00"));
    grimholdi_setup_clear_port_feature(setup, GRIMHOLDI_C_PORT_SUSPEND, 6);
    CHECK(is_packet("\x23\x01\x12\x00\x06\x00\x00\x00"));
    grimholdi_setup_clear_port_feature(setup, GRIMHOLDI_C_PORT_OVER_CURRENT,
                                       7);
    CHECK(is_packet("\x23\x01\x13\x00\x07\x00\x00\x00"));
    grimholdi_setup_clear_port_feature(setup, GRIMHOLDI_C_PORT_RESET, 1);
    CHECK(is_packet("\x23\x01\x14\x00\x01\x00\x00\x00"));
}

/* wValue: endpoint bits 0 to 3, address 4 to 10, type 11 to 12, IN 15. */
static void translator_packets(void)
{
    uint32_t address, endpoint, direction, transfer;

    grimholdi_setup_reset_tt(setup);
    CHECK(is_packet("\x23\x09\x00\x00\x01\x00\x00\x00"));
    grimholdi_setup_clear_tt_buffer(setup, 0, 0, GRIMHOLDI_DIRECTION_OUT,
                                    GRIMHOLDI_TRANSFER_CONTROL);
    CHECK(is_packet("\x23\x08\x00\x00\x01\x00\x00\x00"));
    grimholdi_setup_clear_tt_buffer(setup, 5, 1, GRIMHOLDI_DIRECTION_IN,
                                    GRIMHOLDI_TRANSFER_BULK);
    CHECK(is_packet("\x23\x08\x51\x90\x01\x00\x00\x00"));
    grimholdi_setup_clear_tt_buffer(setup, 127, 15, GRIMHOLDI_DIRECTION_OUT,
                                    GRIMHOLDI_TRANSFER_CONTROL);
    CHECK(is_packet("\x23\x08\xFF\x07\x01\x00\x00\x00"));
    for (address = 0; address < 128; address++)
        for (endpoint = 0; endpoint < 16; endpoint++)
            for (direction = 0; direction < 2; direction++)
                for (transfer = 0; transfer < 3; transfer += 2)
                    CHECK(grimholdi_tt_value(address, endpoint, direction,
                                             transfer)
                          == endpoint + 16 * address + 2048 * transfer
                             + 32768 * direction);
}

static void whole_hub_served(void)
{
    new_hub(PORTS, BUFFERS);
    grimholdi_setup_set_configuration(setup, 1);
    CHECK(sent() == GRIMHOLDI_ANSWER_DONE);
    grimholdi_setup_get_configuration(setup);
    CHECK(sent() == GRIMHOLDI_ANSWER_DATA && reply[0] == 1);
    grimholdi_setup_set_configuration(setup, 0);
    CHECK(sent() == GRIMHOLDI_ANSWER_DONE);
    grimholdi_setup_get_configuration(setup);
    CHECK(sent() == GRIMHOLDI_ANSWER_DATA && reply[0] == 0);

    configured_hub(PORTS, BUFFERS);
    grimholdi_setup_get_hub_descriptor(setup, 9);
    CHECK(sent() == GRIMHOLDI_ANSWER_DATA);
    CHECK(memcmp(reply, "\x09\x29\x04\x09\x00\x32\x64\x00\xFF", 9) == 0);
    memset(reply, 0xEE, 9);
    grimholdi_setup_get_hub_status(setup);
    CHECK(sent() == GRIMHOLDI_ANSWER_DATA);
    CHECK(memcmp(reply, "\x00\x00\x00\x00", 4) == 0);
    grimholdi_setup_clear_hub_feature(setup, GRIMHOLDI_C_HUB_LOCAL_POWER);
    CHECK(sent() == GRIMHOLDI_ANSWER_DONE);
    grimholdi_setup_clear_hub_feature(setup, GRIMHOLDI_C_HUB_OVER_CURRENT);
    CHECK(sent() == GRIMHOLDI_ANSWER_DONE);
}

/* GetPortStatus, built here, gives these bytes. */
static int is_status(uint32_t port, const char *bytes)
{
    grimholdi_setup_get_port_status(setup, port);
    return sent() == GRIMHOLDI_ANSWER_DATA && memcmp(reply, bytes, 4) == 0;
}

static uint8_t set(uint32_t feature, uint32_t port)
{
    grimholdi_setup_set_port_feature(setup, feature, port);
    return sent();
}

static uint8_t clear(uint32_t feature, uint32_t port)
{
    grimholdi_setup_clear_port_feature(setup, feature, port);
    return sent();
}

/* Each feature does what it is named for, at its own port. */
static void ports_served(void)
{
    uint32_t port;

    for (port = 1; port <= PORTS; port++) {
        configured_hub(PORTS, BUFFERS);
        CHECK(is_status(port, "\x00\x00\x00\x00"));
        CHECK(set(GRIMHOLDI_PORT_POWER, port) == GRIMHOLDI_ANSWER_DONE);
        CHECK(is_status(port, "\x00\x01\x00\x00"));
        CHECK(is_status(port % PORTS + 1, "\x00\x00\x00\x00"));
        CHECK(event(GRIMHOLDI_EVENT_ATTACH_FULL, port)
              == GRIMHOLDI_ANSWER_DONE);
        CHECK(clear(GRIMHOLDI_C_PORT_CONNECTION, port)
              == GRIMHOLDI_ANSWER_DONE);
        CHECK(is_status(port, "\x01\x01\x00\x00"));
        CHECK(set(GRIMHOLDI_PORT_RESET, port) == GRIMHOLDI_ANSWER_DONE);
        CHECK(is_status(port, "\x11\x01\x00\x00"));
        ticks(15);
        CHECK(clear(GRIMHOLDI_C_PORT_RESET, port) == GRIMHOLDI_ANSWER_DONE);
        CHECK(is_status(port, "\x03\x01\x00\x00"));
        CHECK(set(GRIMHOLDI_PORT_SUSPEND, port) == GRIMHOLDI_ANSWER_DONE);
        CHECK(is_status(port, "\x07\x01\x00\x00"));
        CHECK(clear(GRIMHOLDI_PORT_SUSPEND, port) == GRIMHOLDI_ANSWER_DONE);
        ticks(22);
        CHECK(is_status(port, "\x03\x01\x04\x00"));
        CHECK(clear(GRIMHOLDI_C_PORT_SUSPEND, port) == GRIMHOLDI_ANSWER_DONE);
        CHECK(is_status(port, "\x03\x01\x00\x00"));
        CHECK(event(GRIMHOLDI_EVENT_PORT_ERROR, port)
              == GRIMHOLDI_ANSWER_DONE);
        CHECK(is_status(port, "\x01\x01\x02\x00"));
        CHECK(clear(GRIMHOLDI_C_PORT_ENABLE, port) == GRIMHOLDI_ANSWER_DONE);
        CHECK(is_status(port, "\x01\x01\x00\x00"));
        CHECK(set(GRIMHOLDI_PORT_RESET, port) == GRIMHOLDI_ANSWER_DONE);
        CHECK(clear(GRIMHOLDI_PORT_ENABLE, port) == GRIMHOLDI_ANSWER_DONE);
        CHECK(is_status(port, "\x01\x01\x00\x00"));
        CHECK(clear(GRIMHOLDI_PORT_POWER, port) == GRIMHOLDI_ANSWER_DONE);
        CHECK(is_status(port, "\x00\x00\x00\x00"));
        CHECK(event(GRIMHOLDI_EVENT_OVER_CURRENT_ON, port)
              == GRIMHOLDI_ANSWER_DONE);
        CHECK(is_status(port, "\x08\x00\x08\x00"));
        CHECK(clear(GRIMHOLDI_C_PORT_OVER_CURRENT, port)
              == GRIMHOLDI_ANSWER_DONE);
        CHECK(is_status(port, "\x08\x00\x00\x00"));
    }
}

/* Lane 0 holds (5,1 IN), (5,1 OUT) and (5,0 IN); all are pending. */
static void held_keys(void)
{
    configured_hub(PORTS, BUFFERS);
    CHECK(start_in(5, 1) == GRIMHOLDI_ANSWER_DONE);
    CHECK(start_out(5, 1, NULL, 0) == GRIMHOLDI_ANSWER_DONE);
    CHECK(start_in(5, 0) == GRIMHOLDI_ANSWER_DONE);
}

/* NYET: pending; STALL: no buffer has the key. */
static int keys_answer(uint8_t in_1, uint8_t out_1, uint8_t in_0)
{
    return complete(5, 1, GRIMHOLDI_DIRECTION_IN).number == in_1
           && complete(5, 1, GRIMHOLDI_DIRECTION_OUT).number == out_1
           && complete(5, 0, GRIMHOLDI_DIRECTION_IN).number == in_0;
}

static void translator_served(void)
{
    static const uint32_t transfers[] = {
        GRIMHOLDI_TRANSFER_CONTROL, GRIMHOLDI_TRANSFER_BULK
    };
    int i;

    for (i = 0; i < 2; i++) { /* the type is not compared */
        held_keys();
        grimholdi_setup_clear_tt_buffer(setup, 5, 1, GRIMHOLDI_DIRECTION_IN,
                                        transfers[i]);
        CHECK(sent() == GRIMHOLDI_ANSWER_DONE);
        CHECK(keys_answer(GRIMHOLDI_ANSWER_STALL, GRIMHOLDI_ANSWER_NYET,
                          GRIMHOLDI_ANSWER_NYET));
        grimholdi_setup_clear_tt_buffer(setup, 5, 1, GRIMHOLDI_DIRECTION_OUT,
                                        transfers[i]);
        CHECK(sent() == GRIMHOLDI_ANSWER_DONE);
        CHECK(keys_answer(GRIMHOLDI_ANSWER_STALL, GRIMHOLDI_ANSWER_STALL,
                          GRIMHOLDI_ANSWER_NYET));
    }
    held_keys();
    grimholdi_setup_reset_tt(setup);
    CHECK(sent() == GRIMHOLDI_ANSWER_DONE);
    CHECK(keys_answer(GRIMHOLDI_ANSWER_STALL, GRIMHOLDI_ANSWER_STALL,
                      GRIMHOLDI_ANSWER_STALL));
}

/* Cut to 16 bits or 8, most of these are ports 1 to 4. */
static void far_ports(void)
{
    static const uint32_t ports[] = {
        0, 5, 255, 256, 257, 258, 260, 512 + 3, 65535, 65536, 65537, 65538,
        65540, 0x00FF0001, 0x01000002, 0x80000001, FAR_NUMBER
    };
    size_t i;

    configured_hub(PORTS, BUFFERS);
    for (i = 0; i < sizeof ports / sizeof *ports; i++) {
        grimholdi_setup_get_port_status(setup, ports[i]);
        CHECK(is_stall());
        grimholdi_setup_set_port_feature(setup, GRIMHOLDI_PORT_POWER,
                                         ports[i]);
        CHECK(is_stall());
        grimholdi_setup_clear_port_feature(setup, GRIMHOLDI_PORT_POWER,
                                           ports[i]);
        CHECK(is_stall());
    }
}

static int is_set_feature(uint32_t number)
{
    return number == 2 || number == 4 || number == 8;
}

static int is_clear_feature(uint32_t number)
{
    return number == 1 || number == 2 || number == 8
           || (number >= 16 && number <= 20);
}

/* Each number, and that number cut away from higher ones. */
static void far_features(void)
{
    static const uint32_t above[] = {0, 256, 65536, 65536 + 256, 0x01000000,
                                     0x80000000};
    uint32_t low;
    size_t i;

    configured_hub(PORTS, BUFFERS);
    for (i = 0; i < sizeof above / sizeof *above; i++)
        for (low = 0; low < 256; low++) {
            uint32_t number = above[i] + low;

            grimholdi_setup_set_configuration(setup, number);
            CHECK(number < 2 || is_stall());
            grimholdi_setup_clear_hub_feature(setup, number);
            CHECK(number < 2 || is_stall());
            grimholdi_setup_set_port_feature(setup, number, 1);
            CHECK(is_set_feature(number) || is_stall());
            grimholdi_setup_clear_port_feature(setup, number, 1);
            CHECK(is_clear_feature(number) || is_stall());
        }
    grimholdi_setup_set_configuration(setup, FAR_NUMBER);
    CHECK(is_stall());
    grimholdi_setup_set_port_feature(setup, FAR_NUMBER, FAR_NUMBER);
    CHECK(is_stall());
}

/*
 * Numbers that would be those of (5,1 IN), bulk, if bits above a field were
 * dropped, or would spill into the field above.
 */
static void far_keys(void)
{
    /* address, endpoint, direction, type */
    static const uint32_t keys[][4] = {
        {128 + 5, 1, 1, 2}, {256 + 5, 1, 1, 2}, {4096 + 5, 1, 1, 2},
        {0x10000005, 1, 1, 2}, {FAR_NUMBER, 1, 1, 2},
        {5, 16 + 1, 1, 2}, {4, 16 + 1, 1, 2}, {5, 65536 + 1, 1, 2},
        {5, FAR_NUMBER, 1, 2},
        {5, 1, 2 + 1, 2}, {5, 1, 2, 2}, {5, 1, 65536 + 1, 2},
        {5, 1, FAR_NUMBER, 2},
        {5, 1, 1, 1}, {5, 1, 1, 3}, {5, 1, 1, 4 + 2}, {5, 1, 1, 32 + 2},
        {5, 1, 0, 16 + 2}, {5, 1, 1, FAR_NUMBER}
    };
    size_t i;

    for (i = 0; i < sizeof keys / sizeof *keys; i++) {
        held_keys();
        CHECK(grimholdi_tt_value(keys[i][0], keys[i][1], keys[i][2],
                                 keys[i][3]) == 0xFFFF);
        grimholdi_setup_clear_tt_buffer(setup, keys[i][0], keys[i][1],
                                        keys[i][2], keys[i][3]);
        CHECK(is_stall());
        CHECK(keys_answer(GRIMHOLDI_ANSWER_NYET, GRIMHOLDI_ANSWER_NYET,
                          GRIMHOLDI_ANSWER_NYET));
    }
}

/* A length is not cut either: the descriptor stays whole. */
static void far_lengths(void)
{
    static const uint32_t lengths[] = {65536, 65536 + 3, FAR_NUMBER};
    size_t i;

    new_hub(PORTS, BUFFERS);
    for (i = 0; i < sizeof lengths / sizeof *lengths; i++) {
        grimholdi_setup_get_hub_descriptor(setup, lengths[i]);
        CHECK(grimholdi_control(area, area_len, 0, setup, sizeof setup, reply,
                                GRIMHOLDI_REPLY_LENGTH).length == 9);
    }
}

int main(void)
{
    whole_hub_packets();
    port_packets();
    translator_packets();
    whole_hub_served();
    ports_served();
    translator_served();
    far_ports();
    far_features();
    far_keys();
    far_lengths();
    free_hub();
    return check_summary("setup packets");
}
