#include "phrases.h"

#include <stdio.h>

#include "names.h"
#include "text.h"

void print_key(unsigned address, unsigned endpoint, unsigned direction)
{
    printf("(%u,%u %s)", address, endpoint,
           grimholdi_direction_name(direction));
}

void print_launched(const grimholdi_answer *answer)
{
    printf("lane %u ", answer->lane);
    print_key(answer->address, answer->endpoint, answer->direction);
    printf(", %s %s, %s speed, toggle %u", grimholdi_pid_name(answer->pid),
           grimholdi_transfer_name(answer->transfer),
           grimholdi_low_speed_name(answer->low_speed), answer->toggle);
}

void print_count(const char *what, size_t count)
{
    if (count == 0)
        printf("no %s", what);
    else
        printf("%s of " BYTE_COUNT, what, BYTE_COUNT_OF(count));
}

void print_hex(const uint8_t *bytes, size_t length)
{
    size_t i;

    for (i = 0; i < length; i++)
        printf(" %02x", bytes[i]);
}
