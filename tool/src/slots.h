/* --count, --list, --size, --priority, as rsu_client prints them. */
#ifndef SLOTS_H
#define SLOTS_H

#include "dump.h"
#include "options.h"

int show_count(const struct options *options, const struct dump *dump, struct flash *flash);
int show_list(const struct options *options, const struct dump *dump, struct flash *flash);
int show_size(const struct options *options, const struct dump *dump, struct flash *flash);
int show_priority(const struct options *options, const struct dump *dump, struct flash *flash);

#endif
