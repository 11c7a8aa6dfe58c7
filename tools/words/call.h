/* One call of the hub: its form, its numbers and bytes. */

#ifndef CALL_H
#define CALL_H

#include "grimholdi.h"

#include "names.h"

typedef enum {
    CALL_CONTROL, CALL_POLL, CALL_START_SPLIT, CALL_COMPLETE_SPLIT,
    CALL_LAUNCH, CALL_DELIVER, CALL_LINE_EVENT, CALL_TICK, CALL_BUS_RESET,
    CALLS
} call_kind;

typedef enum {
    FIELD_LANE, FIELD_PID, FIELD_TYPE, FIELD_SPEED, FIELD_TOGGLE,
    FIELD_ADDRESS, FIELD_ENDPOINT, FIELD_DIRECTION, FIELD_RESULT, FIELD_EVENT,
    FIELD_PORT,
    FIELDS
} call_field;

enum { CALL_FIELDS_MAX = 7 };

/* Any numbers and lengths: those that the hub refuses can be called too. */
typedef struct {
    call_kind kind;
    uint32_t numbers[FIELDS]; /* 0 where the call has no such field */
    const uint8_t *bytes;     /* setup or payload */
    size_t bytes_len;
    size_t room;              /* reply space */
} call;

typedef struct {
    const char *word;      /* in the form of a call: "LANE" */
    const char *name;      /* in sentences: "lane" */
    naming *names;         /* of its numbers, or NULL */
    uint32_t most;         /* without names: 0 to this; a port: the hub's */
    const char *permitted; /* "0 and 1" */
} field_form;

typedef enum { BYTES_NONE, BYTES_SETUP, BYTES_PAYLOAD } call_bytes;

typedef struct {
    uint8_t tag;                        /* of its record */
    const char *name;
    unsigned field_count;
    call_field fields[CALL_FIELDS_MAX]; /* as in the words and the record */
    call_bytes bytes;                   /* behind the fields */
    int has_room;
} call_form;

extern const field_form field_forms[FIELDS];
extern const call_form call_forms[CALLS];

#endif
