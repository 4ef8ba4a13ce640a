/* --places: every place in use and what it holds. */
#ifndef PLACES_H
#define PLACES_H

#include "dump.h"
#include "options.h"

int show_places(const struct options *options, const struct dump *dump, struct flash *flash);

#endif
