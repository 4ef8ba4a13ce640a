/* What the library tells of a flash beside its slots: blocks, copies, entries, places. */
#include "layout.h"

#include "library.h"

const char *const block_names[BLOCKS] = {"SPT0", "SPT1", "CPB0", "CPB1"};
const char *const kind_words[KINDS] = {"erased", "live", "spent", "part-written", "stray"};

static uint8_t read_blocks(const struct flash *flash, struct layout *layout) {
    size_t table, pointers;
    layout->block[0] = flash->spt0;
    layout->block[1] = flash->spt1;
    uint8_t refused = delunkpawi_view(FLASH(flash), &layout->block[2], &layout->block[3], &table, &pointers);
    if (refused != 0) return refused;
    layout->is_read[0] = table == flash->spt0;
    layout->is_read[1] = !layout->is_read[0];
    layout->is_read[2] = pointers == layout->block[2];
    layout->is_read[3] = !layout->is_read[2];
    return 0;
}

static uint8_t read_copies(const struct flash *flash, struct layout *layout) {
    uint8_t stands[BLOCKS], tables, pointers;
    uint8_t refused =
        delunkpawi_copies(FLASH(flash), &stands[0], &stands[1], &stands[2], &stands[3], &tables, &pointers);
    if (refused != 0) return refused;
    for (int block = 0; block < BLOCKS; block++) layout->stands[block] = stands[block] == 1;
    layout->tables_agree = tables == 1;
    layout->pointers_agree = pointers == 1;
    return 0;
}

uint8_t read_layout(const struct flash *flash, struct layout *layout) {
    *layout = (struct layout){0};
    uint8_t refused = read_blocks(flash, layout);
    if (refused == 0) refused = read_copies(flash, layout);
    if (refused == 0) refused = delunkpawi_entry_count(FLASH(flash), &layout->entry_count);
    for (size_t i = 0; i < layout->entry_count && refused == 0; i++) {
        struct entry *entry = &layout->entries[i];
        refused = delunkpawi_entry(FLASH(flash), i, entry->name.bytes, sizeof entry->name.bytes, &entry->name.length,
                                   &entry->start, &entry->size, &entry->flags);
    }
    return refused;
}

uint8_t read_place(const struct flash *flash, size_t number, struct place *place) {
    return delunkpawi_place(FLASH(flash), number, &place->kind, &place->slot, &place->value);
}

void json_entries(const struct layout *layout) {
    json_open('[');
    for (size_t i = 0; i < layout->entry_count; i++) {
        json_open('{');
        json_key("name"), json_name(&layout->entries[i].name);
        json_key("start"), json_number(layout->entries[i].start);
        json_key("size"), json_number(layout->entries[i].size);
        json_key("flags"), json_number(layout->entries[i].flags);
        json_close('}');
    }
    json_close(']');
}
