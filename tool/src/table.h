/* --table: tables, entries, pointer block and its pointers, as U-Boot's `rsu list` shows them. */
#ifndef TABLE_H
#define TABLE_H

#include "dump.h"
#include "options.h"

int show_table(const struct options *options, const struct dump *dump, struct flash *flash);

#endif
