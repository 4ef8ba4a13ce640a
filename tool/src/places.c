/* --places: every place in use and what it holds. */
#include "places.h"

#include <inttypes.h>
#include <stdio.h>

#include "layout.h"
#include "library.h"
#include "reading.h"
#include "status.h"

static void print_place(const struct reading *reading, size_t number, const struct place *place) {
    printf("%5zu %-12s 0x%016" PRIx64, number, kind_words[place->kind], place->value);
    if (place->kind == LIVE) printf(" %s (slot %u)", printed(&reading->slots[place->slot].name), place->slot);
    putchar('\n');
}

static void answer_place(const struct reading *reading, size_t number, const struct place *place) {
    json_open('{');
    json_key("place"), json_number(number);
    json_key("kind"), json_text(kind_words[place->kind]);
    json_key("value"), json_number(place->value);
    if (place->kind == LIVE) json_key("slot"), json_slot(reading, place->slot);
    json_close('}');
}

static uint8_t each_place(const struct flash *flash, const struct reading *reading, size_t count,
                          void (*tell)(const struct reading *, size_t, const struct place *)) {
    uint8_t refused = 0;
    for (size_t number = 0; number < count && refused == 0; number++) {
        struct place place;
        refused = read_place(flash, number, &place);
        if (refused == 0 && place.kind != ERASED) tell(reading, number, &place);
    }
    return refused;
}

int show_places(const struct options *options, const struct dump *dump, struct flash *flash) {
    static struct reading reading;
    size_t count;
    uint8_t refused = read_flash(flash, &reading);
    if (refused == 0) refused = delunkpawi_place_count(FLASH(flash), &count);
    if (refused != 0) return answer_refused(dump, options->json, refused);
    if (!options->json) {
        puts("place kind         value              slot   (the highest place comes first in the boot order)");
        refused = each_place(flash, &reading, count, print_place);
        return refused == 0 ? DONE : fail_refused(dump->path, refused);
    }
    json_begin(dump, flash);
    json_key("place_count"), json_number(count);
    json_key("places"), json_open('[');
    refused = each_place(flash, &reading, count, answer_place);
    json_close(']'), json_close('}');
    json_end();
    return refused == 0 ? DONE : fail_refused(dump->path, refused);
}
