/* Whether two records are alike. */
#ifndef RECORDS_H
#define RECORDS_H

#include <string.h>
#include "ratchetelm.h"

/* What follows the family, and what follows the last field of the ports, is padding. */
static inline int same_fields(const max6954_device *a, const max6954_device *b)
{
    const size_t ports = offsetof(max6957_registers, transition) + sizeof(max6957_transition);
    return memcmp(a, b, offsetof(max6954_device, family) + 1) == 0 && memcmp(&a->ports, &b->ports, ports) == 0;
}

#endif
