/* A call from words: its name, its numbers or their names, bytes in hex. */

#ifndef CALL_WORDS_H
#define CALL_WORDS_H

#include "call.h"
#include "fault.h"

enum {
    FORM_LENGTH = 96,
    WORDS_BYTES_MAX = 1024
};

/* The words of a call: "poll LANE". */
void call_form_words(call_kind kind, char text[FORM_LENGTH]);

/*
 * Reads a whole number, decimal or behind 0x in hex.  1, or 0 and the fault
 * says that the word is no `what`.
 */
int read_number(const char *word, const char *what, uint32_t *number,
                char fault[FAULT_LENGTH]);

/*
 * Reads a call, with GRIMHOLDI_REPLY_LENGTH as its room; its setup or payload
 * is written to `bytes`.  1, or 0 and the fault names the first word that is
 * wrong or missing.
 */
int read_call(char *const *words, size_t count,
              uint8_t bytes[WORDS_BYTES_MAX], call *read,
              char fault[FAULT_LENGTH]);

#endif
