#include "names.h"

#include <ctype.h>
#include <string.h>

const char *name_of(naming *names, uint32_t number)
{
    const char *name = names(number);

    return strcmp(name, GRIMHOLDI_UNKNOWN) == 0 ? NULL : name;
}

int number_of(naming *names, const char *word, uint32_t *number)
{
    uint32_t i;

    for (i = 0; i <= NAMED_MAX; i++) {
        const char *name = name_of(names, i);

        if (name != NULL && same_word(name, word)) {
            *number = i;
            return 1;
        }
    }
    return 0;
}

int same_word(const char *one, const char *other)
{
    while (*one != '\0'
           && tolower((unsigned char)*one) == tolower((unsigned char)*other)) {
        one++;
        other++;
    }
    return *one == '\0' && *other == '\0';
}

uint32_t direction_of_pid(uint32_t pid)
{
    return pid == GRIMHOLDI_PID_IN ? GRIMHOLDI_DIRECTION_IN
                                   : GRIMHOLDI_DIRECTION_OUT;
}
