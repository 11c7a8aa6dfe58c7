/* A record, the written form of a call: docs/CALLS.md. */

#ifndef RECORD_H
#define RECORD_H

#include "call.h"
#include "fault.h"

enum {
    RECORD_COUNTED_MAX = 0xFFFF,                /* setup or payload bytes */
    RECORD_LENGTH_MAX = 31 + RECORD_COUNTED_MAX /* of a start-split */
};

/*
 * Reads the record at the beginning of the bytes; its setup or payload stays
 * where it is.  The record's length, or 0 and the fault says what is wrong.
 */
size_t read_record(const uint8_t *bytes, size_t length, call *read,
                   char fault[FAULT_LENGTH]);

#endif
