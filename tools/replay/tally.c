#include "tally.h"

void tally_add(tally *of, const grimholdi_replayed *block)
{
    of->blocks++;
    of->stored += block->stored;
    of->answered += block->answered;
    of->emptied += block->emptied;
    of->active = block->active;
}

static void print_row(FILE *file, const char *name, unsigned long number)
{
    fprintf(file, "%-24s %8lu\n", name, number);
}

void print_tally(FILE *file, const tally *of)
{
    print_row(file, "blocks replayed", of->blocks);
    print_row(file, "start-splits stored", of->stored);
    print_row(file, "  answered", of->answered);
    print_row(file, "  emptied before that", of->emptied);
    print_row(file, "  pending or ready now", of->active);
    print_row(file, "  sum of these three",
              of->answered + of->emptied + of->active);
}
