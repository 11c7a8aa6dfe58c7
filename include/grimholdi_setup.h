/*
 * grimholdi_setup.h - the setup packets of the requests that the hub serves
 *
 * A host sends them, and the firmware hands them on as they come.  These
 * functions are for a firmware that makes requests of its own, and for tests.
 * Each writes the GRIMHOLDI_SETUP_LENGTH bytes of `setup`; hand them to
 * grimholdi_control:
 *
 *   uint8_t setup[GRIMHOLDI_SETUP_LENGTH];
 *
 *   grimholdi_setup_get_port_status(setup, 2);
 *   answer = grimholdi_control(area, area_len, lane, setup, sizeof setup,
 *                              reply, sizeof reply);
 *
 * All is static inline: nothing is linked.
 *
 * Any number may be handed in.  One that no request has gives a packet that
 * the hub answers with STALL: a number is never cut to one that names another
 * port, feature or device.
 */

#ifndef GRIMHOLDI_SETUP_H
#define GRIMHOLDI_SETUP_H

#include "grimholdi.h"

#ifdef __cplusplus
extern "C" {
#endif

/*
 * What stands for a number that has no place in wValue or wIndex.  No request
 * has it there: the hub answers STALL.
 */
#define GRIMHOLDI_SETUP_NOTHING  0xFFFF

/* A number as a field of 16 bits, or GRIMHOLDI_SETUP_NOTHING. */
static inline uint16_t grimholdi_setup_field(uint32_t number)
{
    return number > 0xFFFFu ? (uint16_t)GRIMHOLDI_SETUP_NOTHING
                            : (uint16_t)number;
}

/*
 * Any setup packet, from fields of their own width: bmRequestType, bRequest,
 * wValue, wIndex, wLength.  The functions below use it.
 */
static inline void grimholdi_setup_packet(uint8_t *setup, uint8_t type,
                                          uint8_t request, uint16_t value,
                                          uint16_t index, uint16_t length)
{
    setup[0] = type;
    setup[1] = request;
    setup[2] = (uint8_t)value;
    setup[3] = (uint8_t)(value >> 8);
    setup[4] = (uint8_t)index;
    setup[5] = (uint8_t)(index >> 8);
    setup[6] = (uint8_t)length;
    setup[7] = (uint8_t)(length >> 8);
}

/* SetConfiguration: 0 or 1.  Acts on both lanes. */
static inline void grimholdi_setup_set_configuration(uint8_t *setup,
                                                     uint32_t configuration)
{
    grimholdi_setup_packet(setup, GRIMHOLDI_TYPE_SET_CONFIGURATION,
                           GRIMHOLDI_REQUEST_SET_CONFIGURATION,
                           grimholdi_setup_field(configuration), 0, 0);
}

static inline void grimholdi_setup_get_configuration(uint8_t *setup)
{
    grimholdi_setup_packet(setup, GRIMHOLDI_TYPE_GET_CONFIGURATION,
                           GRIMHOLDI_REQUEST_GET_CONFIGURATION, 0, 0, 1);
}

/*
 * The first `length` bytes of the hub descriptor, which has nine.  The hub
 * takes any length; one above 65,535 is written as that.
 */
static inline void grimholdi_setup_get_hub_descriptor(uint8_t *setup,
                                                      uint32_t length)
{
    grimholdi_setup_packet(setup, GRIMHOLDI_TYPE_GET_HUB,
                           GRIMHOLDI_REQUEST_GET_DESCRIPTOR,
                           GRIMHOLDI_HUB_DESCRIPTOR, 0,
                           grimholdi_setup_field(length));
}

static inline void grimholdi_setup_get_hub_status(uint8_t *setup)
{
    grimholdi_setup_packet(setup, GRIMHOLDI_TYPE_GET_HUB,
                           GRIMHOLDI_REQUEST_GET_STATUS, 0, 0, 4);
}

static inline void grimholdi_setup_get_port_status(uint8_t *setup,
                                                   uint32_t port)
{
    grimholdi_setup_packet(setup, GRIMHOLDI_TYPE_GET_PORT,
                           GRIMHOLDI_REQUEST_GET_STATUS, 0,
                           grimholdi_setup_field(port), 4);
}

/* ClearHubFeature: GRIMHOLDI_C_HUB_LOCAL_POWER or _C_HUB_OVER_CURRENT. */
static inline void grimholdi_setup_clear_hub_feature(uint8_t *setup,
                                                     uint32_t feature)
{
    grimholdi_setup_packet(setup, GRIMHOLDI_TYPE_SET_HUB,
                           GRIMHOLDI_REQUEST_CLEAR_FEATURE,
                           grimholdi_setup_field(feature), 0, 0);
}

/*
 * ClearPortFeature: GRIMHOLDI_PORT_ENABLE, _SUSPEND or _POWER, or a change,
 * GRIMHOLDI_C_PORT_..
 */
static inline void grimholdi_setup_clear_port_feature(uint8_t *setup,
                                                      uint32_t feature,
                                                      uint32_t port)
{
    grimholdi_setup_packet(setup, GRIMHOLDI_TYPE_SET_PORT,
                           GRIMHOLDI_REQUEST_CLEAR_FEATURE,
                           grimholdi_setup_field(feature),
                           grimholdi_setup_field(port), 0);
}

/* SetPortFeature: GRIMHOLDI_PORT_SUSPEND, _RESET or _POWER. */
static inline void grimholdi_setup_set_port_feature(uint8_t *setup,
                                                    uint32_t feature,
                                                    uint32_t port)
{
    grimholdi_setup_packet(setup, GRIMHOLDI_TYPE_SET_PORT,
                           GRIMHOLDI_REQUEST_SET_FEATURE,
                           grimholdi_setup_field(feature),
                           grimholdi_setup_field(port), 0);
}

/*
 * wValue of ClearTTBuffer: the key's address, endpoint and direction (its lane
 * is that of the request) and the transfer type, which the hub does not
 * compare.  Numbers outside the rules give GRIMHOLDI_SETUP_NOTHING.
 */
static inline uint16_t grimholdi_tt_value(uint32_t address, uint32_t endpoint,
                                          uint32_t direction,
                                          uint32_t transfer)
{
    if (address > GRIMHOLDI_ADDRESS_MAX || endpoint > GRIMHOLDI_ENDPOINT_MAX
        || direction > GRIMHOLDI_DIRECTION_IN
        || (transfer != GRIMHOLDI_TRANSFER_CONTROL
            && transfer != GRIMHOLDI_TRANSFER_BULK))
        return GRIMHOLDI_SETUP_NOTHING;
    return (uint16_t)(endpoint << GRIMHOLDI_TT_ENDPOINT_SHIFT
                      | address << GRIMHOLDI_TT_ADDRESS_SHIFT
                      | transfer << GRIMHOLDI_TT_TRANSFER_SHIFT
                      | direction << GRIMHOLDI_TT_DIRECTION_SHIFT);
}

/* ClearTTBuffer of the caller's lane. */
static inline void grimholdi_setup_clear_tt_buffer(uint8_t *setup,
                                                   uint32_t address,
                                                   uint32_t endpoint,
                                                   uint32_t direction,
                                                   uint32_t transfer)
{
    grimholdi_setup_packet(setup, GRIMHOLDI_TYPE_SET_PORT,
                           GRIMHOLDI_REQUEST_CLEAR_TT_BUFFER,
                           grimholdi_tt_value(address, endpoint, direction,
                                              transfer), 1, 0);
}

/* ResetTT of the caller's lane. */
static inline void grimholdi_setup_reset_tt(uint8_t *setup)
{
    grimholdi_setup_packet(setup, GRIMHOLDI_TYPE_SET_PORT,
                           GRIMHOLDI_REQUEST_RESET_TT, 0, 1, 0);
}

#ifdef __cplusplus
}
#endif

#endif
