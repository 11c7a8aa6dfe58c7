/* The answer of a call and its reason, as lines. */

#ifndef REASON_TEXT_H
#define REASON_TEXT_H

#include "area_view.h"
#include "../words/call.h"

/* The view is of the area before the call. */
void print_reason(const area_view *view, const call *call_of,
                  const grimholdi_answer *answer,
                  const grimholdi_reason *reason);

#endif
