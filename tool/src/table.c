/* --table: tables, entries, pointer block and its pointers, as U-Boot's `rsu list` shows them. */
#include "table.h"

#include <inttypes.h>
#include <stdio.h>

#include "layout.h"
#include "library.h"
#include "reading.h"
#include "status.h"

/* The highest place that holds a slot's start. */
static size_t place_of(const struct flash *flash, uint32_t slot) {
    size_t count = 0;
    struct place place;
    if (delunkpawi_place_count(FLASH(flash), &count) != 0) return 0;
    while (count-- > 0)
        if (read_place(flash, count, &place) == 0 && place.kind == LIVE && place.slot == slot) return count;
    return 0;
}

static void print_table(const struct flash *flash, const struct layout *layout, const struct reading *reading) {
    printf("RSU: Sub-partition table 0 offset 0x%08zx%s\n", layout->block[0], layout->is_read[0] ? " (read)" : "");
    printf("RSU: Sub-partition table 1 offset 0x%08zx%s\n", layout->block[1], layout->is_read[1] ? " (read)" : "");
    puts("RSU: Sub-partition table content");
    for (size_t i = 0; i < layout->entry_count; i++) {
        const struct entry *entry = &layout->entries[i];
        printf("%16s\tOffset: 0x%016" PRIx64 "\tLength: 0x%08" PRIx64 "\tFlag : 0x%08" PRIx64 "\n",
               printed(&entry->name), entry->start, entry->size, entry->flags);
    }
    printf("RSU: CMF pointer block offset 0x%08zx (copy %d, read)\n", layout->block[layout->is_read[2] ? 2 : 3],
           layout->is_read[2] ? 0 : 1);
    puts("RSU: CMF pointer block's image pointer list");
    for (size_t i = 0; i < reading->order_count; i++)
        printf("Priority %zu Offset: 0x%016" PRIx64 " nslot: %zu\n", i + 1, reading->slots[reading->order[i]].start,
               place_of(flash, reading->order[i]));
}

static void answer_table(const struct dump *dump, const struct flash *flash, const struct layout *layout,
                         const struct reading *reading) {
    json_begin(dump, flash);
    json_key("cpb0"), json_number(layout->block[2]);
    json_key("cpb1"), json_number(layout->block[3]);
    json_key("table_read"), json_text(block_names[layout->is_read[0] ? 0 : 1]);
    json_key("pointers_read"), json_text(block_names[layout->is_read[2] ? 2 : 3]);
    json_key("entries"), json_entries(layout);
    json_key("order"), json_order(reading);
    json_close('}');
    json_end();
}

int show_table(const struct options *options, const struct dump *dump, struct flash *flash) {
    static struct layout layout;
    static struct reading reading;
    uint8_t refused = read_layout(flash, &layout);
    if (refused == 0) refused = read_flash(flash, &reading);
    if (refused != 0) return answer_refused(dump, options->json, refused);
    if (options->json)
        answer_table(dump, flash, &layout, &reading);
    else
        print_table(flash, &layout, &reading);
    return DONE;
}
