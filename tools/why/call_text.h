/* A call as a line. */

#ifndef CALL_TEXT_H
#define CALL_TEXT_H

#include "../words/call.h"

/* "call: poll, lane 0, reply space of 64 bytes" */
void print_call(const call *call_of);

/* Bytes in hex, 16 in each line. */
void print_reply(const uint8_t *bytes, size_t length);

#endif
