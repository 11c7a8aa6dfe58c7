/* Makes a call, and explains it. */

#ifndef CALL_MAKE_H
#define CALL_MAKE_H

#include "../words/call.h"

enum { CALL_ROOM_MAX = 1024 };

/*
 * Makes the call on the area.  It is lent as much of the reply space as its
 * room says, all of it where that is more.
 */
grimholdi_answer call_make(const call *call_of, uint8_t *area,
                           size_t area_len, uint8_t reply[CALL_ROOM_MAX]);

/* Its reason, from the library. */
grimholdi_reason call_explain(const call *call_of, const uint8_t *area,
                              size_t area_len);

#endif
