/* The planner's rule and the look back in plain C over the same records, not proved: what max6954_plan and max6954_look_back could cost. */
#ifndef PLAIN_H
#define PLAIN_H

#include "ratchetelm.h"

max6954_plan_answer plain_plan(const max6954_device *chain, size_t n, const uint8_t *wanted, size_t wanted_length, uint16_t *list, size_t room);

max6954_look_back_answer plain_look_back(const max6954_device *chain, size_t n, size_t driver, size_t plane, size_t digit, const uint16_t *words,
                                         size_t length);

#endif
