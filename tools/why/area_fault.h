/* What is wrong with an area; that it is refused, the library says. */

#ifndef AREA_FAULT_H
#define AREA_FAULT_H

#include <stddef.h>
#include <stdint.h>

#include "../words/fault.h"

/*
 * 1, and the fault names the first thing that docs/AREA.md doesn't permit; 0
 * where there is none.  The order: number of ports and buffers, length, the
 * other bytes as they stand, each buffer's key and place with its bytes, then
 * the lanes' limit and the running buffer.
 */
int area_fault(const uint8_t *area, size_t length, char fault[FAULT_LENGTH]);

#endif
