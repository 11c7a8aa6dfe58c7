/*
 * The log of the demo: a time and a letter in each line, as main explains, and
 * a line for each thing that is not as document 01 says.
 */

#ifndef LOG_H
#define LOG_H

#include "grimholdi.h"

/* The time in ms: one for each tick. */
extern unsigned now;

/* What a call answered, or has to answer. */
typedef struct {
    grimholdi_answer answer;
    const uint8_t *bytes; /* of DATA */
} outcome;

outcome answered(uint8_t number);
outcome handshake(uint8_t result);
outcome data(uint8_t result, const uint8_t *bytes, size_t length);

/* The answer of the call that was just made, with the reply space. */
outcome got(grimholdi_answer answer);

/* A heading: of a scene, or of the table at the end. */
void print_title(const char *words);

/* A sentence between the lines of the log. */
void say(const char *sentence);

/* Bytes that are text, the first 32 of them. */
void print_text(const uint8_t *bytes, size_t length);

/* An answer in words. */
void print_outcome(outcome of);

/* The answer of a poll, and that of GetPortStatus with the port's state. */
void print_bitmap(outcome of);
void print_status(uint8_t state, outcome of);

/* Equal in every field and byte. */
int same(outcome a, outcome b);

/* Begins a line for what is not as it has to be.  `of` may be "". */
void print_unexpected(const char *what, const char *of);

/* Prints such a line if a call did not answer what is due. */
void check(const char *call, const char *of, outcome due, outcome is);

/* How many such lines there are. */
unsigned unexpected_lines(void);

#endif
