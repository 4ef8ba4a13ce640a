/* What the library reads of a flash: its slots and its boot order. */
#include "reading.h"

#include <stdio.h>
#include <stdlib.h>
#include <string.h>

#include "library.h"
#include "status.h"

static uint8_t read_slot(const struct flash *flash, uint32_t number, struct slot *slot) {
    size_t entry;
    uint64_t flags;
    uint8_t refused = delunkpawi_slot_facts(FLASH(flash), number, &entry, &slot->start, &slot->size, &flags);
    if (refused != 0) return refused;
    return delunkpawi_slot_name(FLASH(flash), number, slot->name.bytes, sizeof slot->name.bytes, &slot->name.length);
}

uint8_t read_flash(const struct flash *flash, struct reading *reading) {
    *reading = (struct reading){0};
    uint8_t refused = delunkpawi_slot_count(FLASH(flash), &reading->slot_count);
    for (uint32_t slot = 0; slot < reading->slot_count && refused == 0; slot++)
        refused = read_slot(flash, slot, &reading->slots[slot]);
    if (refused == 0) refused = delunkpawi_order(FLASH(flash), reading->order, SLOTS_MAX, &reading->order_count);
    for (size_t rank = 1; rank <= reading->order_count && refused == 0; rank++)
        reading->slots[reading->order[rank - 1]].rank = rank;
    return refused;
}

uint32_t slot_named(const struct flash *flash, const char *name) {
    static struct reading reading;
    if (read_flash(flash, &reading) != 0) return UINT32_MAX;
    for (uint32_t slot = 0; slot < reading.slot_count; slot++) {
        const struct name *own = &reading.slots[slot].name;
        if (own->length == strlen(name) && memcmp(own->bytes, name, own->length) == 0) return slot;
    }
    fail(DONE, "no slot is named %s", name);
    return UINT32_MAX;
}

uint32_t slot_called(const struct flash *flash, const char *word) {
    if (word[0] == '=') return slot_named(flash, word + 1);
    if (word[0] == 0 || strspn(word, "0123456789") != strlen(word)) return slot_named(flash, word);
    unsigned long long number = strtoull(word, NULL, 10);
    return number < UINT32_MAX ? (uint32_t)number : UINT32_MAX;
}

const struct slot *slot_starting(const struct reading *reading, uint64_t start) {
    for (size_t slot = 0; slot < reading->slot_count; slot++)
        if (reading->slots[slot].start == start) return &reading->slots[slot];
    return NULL;
}

void print_order(const struct reading *reading) {
    if (reading->order_count == 0) fputs("none: the factory image starts", stdout);
    for (size_t i = 0; i < reading->order_count; i++) {
        uint32_t slot = reading->order[i];
        printf("%s%s (slot %u)", i > 0 ? ", " : "", printed(&reading->slots[slot].name), slot);
    }
    putchar('\n');
}

void json_begin(const struct dump *dump, const struct flash *flash) {
    json_open('{');
    json_key("image"), json_text(dump->path);
    json_key("length"), json_number(flash->length);
    json_key("base"), json_number(flash->base);
    json_key("granule"), json_number(flash->granule);
    json_key("spt0"), json_number(flash->spt0);
    json_key("spt1"), json_number(flash->spt1);
}

void json_slot(const struct reading *reading, uint32_t number) {
    const struct slot *slot = &reading->slots[number];
    json_open('{');
    json_key("slot"), json_number(number);
    json_key("name"), json_name(&slot->name);
    json_key("start"), json_number(slot->start);
    json_key("size"), json_number(slot->size);
    json_key("priority");
    if (slot->rank > 0)
        json_number(slot->rank);
    else
        json_text("disabled");
    json_close('}');
}

void json_order(const struct reading *reading) {
    json_open('[');
    for (size_t i = 0; i < reading->order_count; i++) json_slot(reading, reading->order[i]);
    json_close(']');
}

void json_slots(const struct reading *reading) {
    json_open('[');
    for (uint32_t slot = 0; slot < reading->slot_count; slot++) json_slot(reading, slot);
    json_close(']');
}

int answer_refused(const struct dump *dump, bool json, uint8_t number) {
    if (json) {
        json_open('{');
        json_key("image"), json_text(dump->path);
        json_key("refused"), json_number(number);
        json_key("meaning"), json_text(refusal_meaning(number));
        json_key("next"), json_text(refusal_next(number));
        json_close('}');
        json_end();
    }
    return fail_refused(dump->path, number);
}
