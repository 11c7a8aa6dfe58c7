/*
 * grimholdi_names.h - the names of the interface's numbers, for logs
 *
 *   printf("port %u: %s\n", port,
 *          grimholdi_state_name(grimholdi_port_state(area, area_len, port)));
 *
 * All is static inline: nothing is linked, and a firmware has the strings of
 * the functions that it uses.  Any number may be handed in; one that has no
 * name gives GRIMHOLDI_UNKNOWN.  The programs `why` and `replay` print the
 * same names.
 */

#ifndef GRIMHOLDI_NAMES_H
#define GRIMHOLDI_NAMES_H

#include "grimholdi.h"
#include "grimholdi_port.h"

#ifdef __cplusplus
extern "C" {
#endif

#define GRIMHOLDI_UNKNOWN  "unknown"

/* The field `number` of an answer, and what the block calls return. */
static inline const char *grimholdi_answer_name(uint32_t number)
{
    switch (number) {
    case GRIMHOLDI_ANSWER_DONE:      return "DONE";
    case GRIMHOLDI_ANSWER_DATA:      return "DATA";
    case GRIMHOLDI_ANSWER_STALL:     return "STALL";
    case GRIMHOLDI_ANSWER_NAK:       return "NAK";
    case GRIMHOLDI_ANSWER_NYET:      return "NYET";
    case GRIMHOLDI_ANSWER_SILENT:    return "SILENT";
    case GRIMHOLDI_ANSWER_OUTSIDE:   return "OUTSIDE";
    case GRIMHOLDI_ANSWER_NO_SPACE:  return "NO_SPACE";
    case GRIMHOLDI_ANSWER_NOT_NOW:   return "NOT_NOW";
    case GRIMHOLDI_ANSWER_HANDSHAKE: return "HANDSHAKE";
    default:                         return GRIMHOLDI_UNKNOWN;
    }
}

/* A result that is delivered, and `pid` of a complete-split's answer. */
static inline const char *grimholdi_result_name(uint32_t result)
{
    switch (result) {
    case GRIMHOLDI_RESULT_FAILURE: return "failure";
    case GRIMHOLDI_RESULT_ACK:     return "ACK";
    case GRIMHOLDI_RESULT_DATA0:   return "DATA0";
    case GRIMHOLDI_RESULT_NAK:     return "NAK";
    case GRIMHOLDI_RESULT_DATA1:   return "DATA1";
    case GRIMHOLDI_RESULT_STALL:   return "STALL";
    default:                       return GRIMHOLDI_UNKNOWN;
    }
}

/* The PID of a start-split, and `pid` of a launch's answer. */
static inline const char *grimholdi_pid_name(uint32_t pid)
{
    switch (pid) {
    case GRIMHOLDI_PID_OUT:   return "OUT";
    case GRIMHOLDI_PID_IN:    return "IN";
    case GRIMHOLDI_PID_SETUP: return "SETUP";
    default:                  return GRIMHOLDI_UNKNOWN;
    }
}

/* A transfer type. */
static inline const char *grimholdi_transfer_name(uint32_t transfer)
{
    switch (transfer) {
    case GRIMHOLDI_TRANSFER_CONTROL: return "control";
    case GRIMHOLDI_TRANSFER_BULK:    return "bulk";
    default:                         return GRIMHOLDI_UNKNOWN;
    }
}

/* The direction of a key. */
static inline const char *grimholdi_direction_name(uint32_t direction)
{
    switch (direction) {
    case GRIMHOLDI_DIRECTION_OUT: return "OUT";
    case GRIMHOLDI_DIRECTION_IN:  return "IN";
    default:                      return GRIMHOLDI_UNKNOWN;
    }
}

/* A line event. */
static inline const char *grimholdi_event_name(uint32_t event)
{
    switch (event) {
    case GRIMHOLDI_EVENT_ATTACH_LOW:       return "attach-low";
    case GRIMHOLDI_EVENT_ATTACH_FULL:      return "attach-full";
    case GRIMHOLDI_EVENT_DETACH:           return "detach";
    case GRIMHOLDI_EVENT_CHIRP:            return "chirp";
    case GRIMHOLDI_EVENT_WAKE:             return "wake";
    case GRIMHOLDI_EVENT_PORT_ERROR:       return "port-error";
    case GRIMHOLDI_EVENT_OVER_CURRENT_ON:  return "over-current-on";
    case GRIMHOLDI_EVENT_OVER_CURRENT_OFF: return "over-current-off";
    default:                               return GRIMHOLDI_UNKNOWN;
    }
}

/* A port's state, as grimholdi_port_state gives it. */
static inline const char *grimholdi_state_name(uint32_t state)
{
    switch (state) {
    case GRIMHOLDI_STATE_NOT_CONFIGURED: return "Not Configured";
    case GRIMHOLDI_STATE_POWERED_OFF:    return "Powered-off";
    case GRIMHOLDI_STATE_DISCONNECTED:   return "Disconnected";
    case GRIMHOLDI_STATE_DISABLED:       return "Disabled";
    case GRIMHOLDI_STATE_RESETTING:      return "Resetting";
    case GRIMHOLDI_STATE_ENABLED:        return "Enabled";
    case GRIMHOLDI_STATE_SUSPENDED:      return "Suspended";
    case GRIMHOLDI_STATE_RESUMING:       return "Resuming";
    default:                             return GRIMHOLDI_UNKNOWN;
    }
}

/* The flag `low_speed` of a start-split and of a launch's answer. */
static inline const char *grimholdi_low_speed_name(uint32_t low_speed)
{
    switch (low_speed) {
    case 0:  return "full";
    case 1:  return "low";
    default: return GRIMHOLDI_UNKNOWN;
    }
}

/* A device's speed, as grimholdi_port_speed gives it; not the flag above. */
static inline const char *grimholdi_speed_name(uint32_t speed)
{
    switch (speed) {
    case GRIMHOLDI_SPEED_LOW:  return "low";
    case GRIMHOLDI_SPEED_FULL: return "full";
    case GRIMHOLDI_SPEED_HIGH: return "high";
    default:                   return GRIMHOLDI_UNKNOWN;
    }
}

/* A change bit, GRIMHOLDI_CHANGE_.., one of them. */
static inline const char *grimholdi_change_name(uint32_t change)
{
    switch (change) {
    case GRIMHOLDI_CHANGE_CONNECTION:   return "C_PORT_CONNECTION";
    case GRIMHOLDI_CHANGE_ENABLE:       return "C_PORT_ENABLE";
    case GRIMHOLDI_CHANGE_SUSPEND:      return "C_PORT_SUSPEND";
    case GRIMHOLDI_CHANGE_OVER_CURRENT: return "C_PORT_OVER_CURRENT";
    case GRIMHOLDI_CHANGE_RESET:        return "C_PORT_RESET";
    default:                            return GRIMHOLDI_UNKNOWN;
    }
}

/* The field `kind` of a reason. */
static inline const char *grimholdi_why_name(uint32_t kind)
{
    switch (kind) {
    case GRIMHOLDI_WHY_NONE:      return "NONE";
    case GRIMHOLDI_WHY_NUMBER:    return "NUMBER";
    case GRIMHOLDI_WHY_HELD:      return "HELD";
    case GRIMHOLDI_WHY_REUSED:    return "REUSED";
    case GRIMHOLDI_WHY_TOOK_FREE: return "TOOK_FREE";
    case GRIMHOLDI_WHY_LIMIT:     return "LIMIT";
    case GRIMHOLDI_WHY_NO_ROOM:   return "NO_ROOM";
    case GRIMHOLDI_WHY_CHANGES:   return "CHANGES";
    case GRIMHOLDI_WHY_WRONG:     return "WRONG";
    default:                      return GRIMHOLDI_UNKNOWN;
    }
}

#ifdef __cplusplus
}
#endif

#endif
