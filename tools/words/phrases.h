/* Phrases that stand in lines of several kinds. */

#ifndef PHRASES_H
#define PHRASES_H

#include "grimholdi.h"

/* "(5,1 IN)" */
void print_key(unsigned address, unsigned endpoint, unsigned direction);

/* "lane 0 (5,1 IN), IN bulk, full speed, toggle 0", of a launch's answer */
void print_launched(const grimholdi_answer *answer);

/* "no payload", "payload of 1 byte" */
void print_count(const char *what, size_t count);

/* " 11 22 33" */
void print_hex(const uint8_t *bytes, size_t length);

#endif
