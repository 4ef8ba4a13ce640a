/* The setting of a dump: given, or found. */
#ifndef SETTLE_H
#define SETTLE_H

#include "dump.h"
#include "options.h"

/* Lays the dump at its base, with the setting by which the library reads it. */
int settle(struct flash *flash, const struct dump *dump, const struct options *options);

#endif
