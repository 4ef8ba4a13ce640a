/* Finding where the tables of a dump stand. The finder only proposes; the library judges. */
#ifndef FINDER_H
#define FINDER_H

#include "dump.h"
#include "options.h"

struct setting {
    size_t base, spt0, spt1;
};

struct proposals {
    struct setting *settings; /* each once, in ascending order */
    size_t count, room;
    bool has_reversed; /* a bit-reversed magic was seen, first at this offset of the file */
    size_t reversed_at;
    bool has_other_version; /* a table of another version than 0 was seen */
    size_t other_version_at;
};

/* Looks at the first 8 bytes at every multiple of 4,096 of the file, and at the whole table where they are a table's.
 */
int propose(struct proposals *proposals, const struct dump *dump, const struct given *base);
void proposals_drop(struct proposals *proposals);

#endif
