/* What became of the start-splits of a session. */

#ifndef TALLY_H
#define TALLY_H

#include <stdio.h>

#include "grimholdi.h"

typedef struct {
    unsigned long blocks;
    unsigned long stored;
    unsigned long answered;
    unsigned long emptied;
    unsigned long active; /* pending or ready now */
} tally;

/* Adds a block that was replayed. */
void tally_add(tally *of, const grimholdi_replayed *block);

/* A table; the sum of answered, emptied and active stands below stored. */
void print_tally(FILE *file, const tally *of);

#endif
