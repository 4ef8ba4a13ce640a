/* --map: a drawing of the flash. */
#ifndef MAP_H
#define MAP_H

#include "dump.h"
#include "options.h"

int show_map(const struct options *options, const struct dump *dump, struct flash *flash);

#endif
