/* --map: a drawing of the flash: partitions, the four blocks, which copies stand and agree, the boot order. */
#include "map.h"

#include <inttypes.h>
#include <stdio.h>
#include <stdlib.h>

#include "layout.h"
#include "reading.h"
#include "status.h"

enum { SYSTEM = 1, READ_ONLY = 2 };

static int compare_starts(const void *left, const void *right) {
    uint64_t one = ((const struct entry *)left)->start, other = ((const struct entry *)right)->start;
    return (one > other) - (one < other);
}

static void draw_line(uint64_t address) {
    printf("0x%08" PRIx64 " +------------------+\n", address);
}

static void draw_box(const char *name, uint64_t size) {
    printf("           | %-16s | %12s KiB", name, grouped(size / 1024));
}

static const char *agreement(const struct layout *layout, int block) {
    bool agree = block < 2 ? layout->tables_agree : layout->pointers_agree;
    return agree ? "agrees" : layout->stands[block] ? "differs" : "";
}

/* The block that starts here, or BLOCKS. */
static int block_at(const struct layout *layout, uint64_t start) {
    int block = 0;
    while (block < BLOCKS && layout->block[block] != start) block++;
    return block;
}

static void say_block(const struct layout *layout, int block) {
    const char *agrees = agreement(layout, block);
    printf("  %s, %s%s%s%s", block < 2 ? "table" : "pointer block", layout->stands[block] ? "stands" : "DOES NOT STAND",
           agrees[0] != 0 ? ", " : "", agrees, layout->is_read[block] ? ", read" : "");
}

static void say_slot(const struct reading *reading, uint64_t start) {
    for (uint32_t slot = 0; slot < reading->slot_count; slot++) {
        if (reading->slots[slot].start != start) continue;
        printf("  slot %u, ", slot);
        if (reading->slots[slot].rank > 0)
            printf("no. %zu of the boot order", reading->slots[slot].rank);
        else
            fputs("disabled", stdout);
    }
}

static void draw_entry(const struct flash *flash, const struct layout *layout, const struct reading *reading,
                       const struct entry *entry) {
    int block = block_at(layout, entry->start);
    draw_line(entry->start);
    draw_box(printed(&entry->name), entry->size);
    if (block < BLOCKS)
        say_block(layout, block);
    else if (entry->flags & SYSTEM)
        fputs(entry->flags & READ_ONLY ? "  system, read only" : "  system", stdout);
    else if (entry->flags & READ_ONLY)
        fputs("  read only", stdout);
    say_slot(reading, entry->start);
    puts(entry->start < flash->base ? "  (not in this file)" : "");
}

static void draw_gap(uint64_t from, uint64_t to) {
    if (from >= to) return;
    draw_line(from);
    draw_box("", to - from);
    puts("  free");
}

static void draw(const struct flash *flash, struct layout *layout, const struct reading *reading) {
    uint64_t at = 0;
    qsort(layout->entries, layout->entry_count, sizeof layout->entries[0], compare_starts);
    for (size_t i = 0; i < layout->entry_count; i++) {
        draw_gap(at, layout->entries[i].start);
        draw_entry(flash, layout, reading, &layout->entries[i]);
        at = layout->entries[i].start + layout->entries[i].size;
    }
    draw_gap(at, flash->length);
    draw_line(flash->length);
    printf("boot order: ");
    print_order(reading);
}

static void answer_map(const struct dump *dump, const struct flash *flash, const struct layout *layout,
                       const struct reading *reading) {
    json_begin(dump, flash);
    json_key("blocks"), json_open('[');
    for (int block = 0; block < BLOCKS; block++) {
        json_open('{');
        json_key("name"), json_text(block_names[block]);
        json_key("start"), json_number(layout->block[block]);
        json_key("stands"), json_bool(layout->stands[block]);
        json_key("read"), json_bool(layout->is_read[block]);
        json_key("agrees"), json_bool(block < 2 ? layout->tables_agree : layout->pointers_agree);
        json_close('}');
    }
    json_close(']');
    json_key("partitions"), json_entries(layout);
    json_key("order"), json_order(reading);
    json_close('}');
    json_end();
}

int show_map(const struct options *options, const struct dump *dump, struct flash *flash) {
    static struct layout layout;
    static struct reading reading;
    uint8_t refused = read_layout(flash, &layout);
    if (refused == 0) refused = read_flash(flash, &reading);
    if (refused != 0) return answer_refused(dump, options->json, refused);
    if (options->json)
        answer_map(dump, flash, &layout, &reading);
    else
        draw(flash, &layout, &reading);
    return DONE;
}
