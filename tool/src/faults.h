/* Which rule each copy of the table breaks, and at which entry. */
#ifndef FAULTS_H
#define FAULTS_H

#include <stddef.h>
#include <stdint.h>

#include "dump.h"

enum { TABLE_COPIES = 2 };

struct faults {
    int refused; /* the refusal that they go with; 0 where there are none to tell */
    size_t address[TABLE_COPIES];
    uint8_t rule[TABLE_COPIES];
    size_t entry[TABLE_COPIES];
};

/* The faults of SPT0 and SPT1 where the flash is refused because no copy stands. */
struct faults faults_of(const struct flash *flash, int refused);

/* Says for each copy the rule, the entry, where to look and what to do next. */
void say_faults(const struct faults *faults);

#endif
