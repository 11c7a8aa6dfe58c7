#include "text.h"

#include <string.h>

const char *plural(size_t count)
{
    return count == 1 ? "" : "s";
}

void add_text(char *text, size_t size, const char *more)
{
    strncat(text, more, size - strlen(text) - 1);
}
