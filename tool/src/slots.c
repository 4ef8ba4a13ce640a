/* --count, --list, --size, --priority, as rsu_client prints them. */
#include "slots.h"

#include <inttypes.h>
#include <stdio.h>

#include "library.h"
#include "reading.h"
#include "status.h"

static int completed(void) {
    puts("Operation completed");
    return DONE;
}

static void print_priority(const char *before, const struct slot *slot) {
    if (slot->rank > 0)
        printf("%s%zu\n", before, slot->rank);
    else
        printf("%s[disabled]\n", before);
}

int show_count(const struct options *options, const struct dump *dump, struct flash *flash) {
    size_t count;
    uint8_t refused = delunkpawi_slot_count(FLASH(flash), &count);
    if (refused != 0) return answer_refused(dump, options->json, refused);
    if (options->json) {
        json_begin(dump, flash);
        json_key("slots"), json_number(count);
        json_close('}');
        json_end();
        return DONE;
    }
    printf("number of slots is %zu\n", count);
    return completed();
}

/* The flash read, and the slot that the word means. */
static int read_one(const struct options *options, const struct dump *dump, const struct flash *flash,
                    struct reading *reading, uint32_t *number) {
    size_t entry;
    uint64_t start, size, flags;
    *number = slot_called(flash, options->words[0]);
    uint8_t refused = delunkpawi_slot_facts(FLASH(flash), *number, &entry, &start, &size, &flags);
    if (refused == 0) refused = read_flash(flash, reading);
    return refused == 0 ? DONE : answer_refused(dump, options->json, refused);
}

static int answer_slot(const struct dump *dump, const struct flash *flash, const struct reading *reading,
                       uint32_t number) {
    json_begin(dump, flash);
    json_key("slot"), json_slot(reading, number);
    json_close('}');
    json_end();
    return DONE;
}

static int list_all(const struct options *options, const struct dump *dump, const struct flash *flash,
                    struct reading *reading) {
    uint8_t refused = read_flash(flash, reading);
    if (refused != 0) return answer_refused(dump, options->json, refused);
    if (options->json) {
        json_begin(dump, flash);
        json_key("slots"), json_slots(reading);
        json_close('}');
        json_end();
        return DONE;
    }
    puts("slot name            offset             size       priority");
    for (uint32_t number = 0; number < reading->slot_count; number++) {
        const struct slot *slot = &reading->slots[number];
        printf("%4u %-15s 0x%016" PRIx64 " 0x%08" PRIx64, number, printed(&slot->name), slot->start, slot->size);
        print_priority(" ", slot);
    }
    return DONE;
}

int show_list(const struct options *options, const struct dump *dump, struct flash *flash) {
    static struct reading reading;
    uint32_t number;
    if (options->words[0] == NULL) return list_all(options, dump, flash, &reading);
    int status = read_one(options, dump, flash, &reading, &number);
    if (status != DONE) return status;
    if (options->json) return answer_slot(dump, flash, &reading, number);
    const struct slot *slot = &reading.slots[number];
    printf("NAME: %s\nOFFSET: 0x%016" PRIx64 "\nSIZE: 0x%08" PRIx64 "\n", printed(&slot->name), slot->start,
           slot->size);
    print_priority("PRIORITY: ", slot);
    return completed();
}

int show_size(const struct options *options, const struct dump *dump, struct flash *flash) {
    static struct reading reading;
    uint32_t number;
    int status = read_one(options, dump, flash, &reading, &number);
    if (status != DONE) return status;
    if (options->json) return answer_slot(dump, flash, &reading, number);
    printf("size of slot %u is %" PRIu64 "\n", number, reading.slots[number].size);
    return DONE;
}

int show_priority(const struct options *options, const struct dump *dump, struct flash *flash) {
    static struct reading reading;
    uint32_t number;
    int status = read_one(options, dump, flash, &reading, &number);
    if (status != DONE) return status;
    if (options->json) return answer_slot(dump, flash, &reading, number);
    printf("priority of slot %u is ", number);
    print_priority("", &reading.slots[number]);
    return DONE;
}
