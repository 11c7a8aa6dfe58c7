/* Where the bytes of a block are, docs/CALLS.md. */

#ifndef BLOCK_LAYOUT_H
#define BLOCK_LAYOUT_H

#include "grimholdi.h"

enum {
    BLOCK_NUMBER = 0,
    BLOCK_COUNT = 2,
    BLOCK_RECORDS = 4,
    BLOCK_CHECK = BLOCK_RECORDS + GRIMHOLDI_BLOCK_USED_MAX
};

#endif
