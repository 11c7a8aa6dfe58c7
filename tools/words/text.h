/* Pieces of text. */

#ifndef TEXT_H
#define TEXT_H

#include <stddef.h>

/* "1 byte", "3 bytes": one in the format, the other among its arguments. */
#define BYTE_COUNT            "%lu byte%s"
#define BYTE_COUNT_OF(count)  (unsigned long)(count), plural(count)

/* "" for 1, else "s" */
const char *plural(size_t count);

/* Adds to a text that has room for `size` characters, its end among them. */
void add_text(char *text, size_t size, const char *more);

#endif
