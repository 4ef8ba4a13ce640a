/* --check: do the pairs agree, what do the places hold. */
#ifndef CHECK_H
#define CHECK_H

#include "dump.h"
#include "options.h"

int show_check(const struct options *options, const struct dump *dump, struct flash *flash);

#endif
