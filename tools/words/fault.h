/* The sentence that says what is wrong with an area, a record or words. */

#ifndef FAULT_H
#define FAULT_H

enum { FAULT_LENGTH = 512 };

/* Writes the sentence, cut to FAULT_LENGTH - 1 characters; 1, always. */
int fault_says(char fault[FAULT_LENGTH], const char *format, ...);

#endif
