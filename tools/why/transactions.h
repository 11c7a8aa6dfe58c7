/* What PIDs and results permit, to name it; the library decides. */

#ifndef TRANSACTIONS_H
#define TRANSACTIONS_H

#include <stdint.h>

typedef struct {
    uint8_t least;
    uint8_t most;
    const char *text; /* "0 to 64" */
} length_rule;

/* Payload of a start-split with this PID; NULL for a PID without a name. */
const length_rule *start_lengths(uint32_t pid);

/* Payload of this result; NULL for a result without a name. */
const length_rule *result_lengths(uint32_t result);

/* What may be delivered for this PID, which has a name. */
const char *suiting_results(uint32_t pid);

#endif
