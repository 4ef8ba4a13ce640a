/* What the library tells of a flash beside its slots: blocks, copies, entries, places. */
#ifndef LAYOUT_H
#define LAYOUT_H

#include "dump.h"
#include "text.h"

enum { ENTRIES_MAX = 127, BLOCKS = 4 };

struct entry {
    struct name name;
    uint64_t start, size, flags;
};

struct layout {
    struct entry entries[ENTRIES_MAX];
    size_t entry_count;
    size_t block[BLOCKS]; /* the addresses of SPT0, SPT1, CPB0, CPB1 */
    bool stands[BLOCKS];
    bool is_read[BLOCKS];
    bool tables_agree, pointers_agree;
};

/* The library's numbers for what a place holds. */
enum place_kind { ERASED, LIVE, SPENT, PART_WRITTEN, STRAY, KINDS };

struct place {
    uint8_t kind;
    uint32_t slot;
    uint64_t value;
};

extern const char *const block_names[BLOCKS];

/* Each: 0, or the number of a refusal. */
uint8_t read_layout(const struct flash *flash, struct layout *layout);
uint8_t read_place(const struct flash *flash, size_t number, struct place *place);

/* The entries as a list in JSON. */
void json_entries(const struct layout *layout);

/* What a place of this kind is called. */
extern const char *const kind_words[KINDS];

#endif
