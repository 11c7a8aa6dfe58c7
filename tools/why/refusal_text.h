/* Sentences for the answers 5 to 8 that fit the very call. */

#ifndef REFUSAL_TEXT_H
#define REFUSAL_TEXT_H

#include "area_view.h"
#include "../words/call.h"

/*
 * `number` is the reason's.  One line, or for OUTSIDE one for each number or
 * length that is outside the rules.
 */
void print_refusal(unsigned number, const area_view *view,
                   const call *call_of);

#endif
