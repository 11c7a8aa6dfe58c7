/* The names of the interface's numbers, which grimholdi_names.h gives. */

#ifndef NAMES_H
#define NAMES_H

#include "grimholdi_names.h"

/* One kind of numbers: a function of grimholdi_names.h. */
typedef const char *naming(uint32_t number);

/* No number with a name is higher. */
enum { NAMED_MAX = 255 };

/* NULL where the number has no name. */
const char *name_of(naming *names, uint32_t number);

/* Finds a word, in any case; 0 where it names nothing. */
int number_of(naming *names, const char *word, uint32_t *number);

/* Equal, in any case. */
int same_word(const char *one, const char *other);

/* The key's direction that goes with a PID. */
uint32_t direction_of_pid(uint32_t pid);

#endif
