/* A call and its answer as a line, docs/CALLS.md. */

#ifndef ANSWER_TEXT_H
#define ANSWER_TEXT_H

#include "../words/call.h"

/* "poll 0 (reply space of 10 bytes)": words that `why` takes, then more. */
void print_call_words(const call *made);

/* "DATA DATA0, 3 bytes 11 22 33" */
void print_answer(const call *made, const grimholdi_answer *answer,
                  const uint8_t *reply);

#endif
