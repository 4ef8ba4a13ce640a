/* --check: do the pairs agree, what do the places hold. */
#include "check.h"

#include <stdio.h>

#include "layout.h"
#include "library.h"
#include "reading.h"
#include "status.h"

/* How many places there are of each kind. */
struct tally {
    size_t of[KINDS];
};

static uint8_t count_places(const struct flash *flash, struct tally *tally) {
    size_t count = 0;
    uint8_t refused = delunkpawi_place_count(FLASH(flash), &count);
    *tally = (struct tally){0};
    for (size_t number = 0; number < count && refused == 0; number++) {
        struct place place;
        refused = read_place(flash, number, &place);
        if (refused == 0 && place.kind < KINDS) tally->of[place.kind]++;
    }
    return refused;
}

static const char *pair_state(const struct layout *layout, int first, bool agree) {
    if (agree) return "agree";
    if (!layout->stands[first]) return first == 0 ? "SPT0 does not stand" : "CPB0 does not stand";
    if (!layout->stands[first + 1]) return first == 0 ? "SPT1 does not stand" : "CPB1 does not stand";
    return "differ";
}

static void print_check(const struct dump *dump, const struct layout *layout, const struct reading *reading,
                        const struct tally *tally) {
    bool agree = layout->tables_agree && layout->pointers_agree;
    printf("%s: %s: tables %s, pointer blocks %s; places:", dump->path, agree ? "ok" : "REPAIR",
           pair_state(layout, 0, layout->tables_agree), pair_state(layout, 2, layout->pointers_agree));
    for (int kind = ERASED; kind < KINDS; kind++)
        printf("%s %zu %s", kind > 0 ? "," : "", tally->of[kind], kind_words[kind]);
    printf("; starts: ");
    if (reading->order_count > 0)
        puts(printed(&reading->slots[reading->order[0]].name));
    else
        puts("the factory image");
}

static void answer_check(const struct dump *dump, const struct flash *flash, const struct layout *layout,
                         const struct reading *reading, const struct tally *tally) {
    json_begin(dump, flash);
    json_key("tables_agree"), json_bool(layout->tables_agree);
    json_key("pointers_agree"), json_bool(layout->pointers_agree);
    json_key("stands"), json_open('{');
    for (int block = 0; block < BLOCKS; block++) json_key(block_names[block]), json_bool(layout->stands[block]);
    json_close('}');
    json_key("places"), json_open('{');
    for (int kind = ERASED; kind < KINDS; kind++) json_key(kind_words[kind]), json_number(tally->of[kind]);
    json_close('}');
    json_key("order"), json_order(reading);
    json_close('}');
    json_end();
}

int show_check(const struct options *options, const struct dump *dump, struct flash *flash) {
    static struct layout layout;
    static struct reading reading;
    struct tally tally;
    uint8_t refused = read_layout(flash, &layout);
    if (refused == 0) refused = read_flash(flash, &reading);
    if (refused == 0) refused = count_places(flash, &tally);
    if (refused != 0) return answer_refused(dump, options->json, refused);
    if (options->json)
        answer_check(dump, flash, &layout, &reading, &tally);
    else
        print_check(dump, &layout, &reading, &tally);
    if (layout.tables_agree && layout.pointers_agree) return DONE;
    fail(PAIR_DISAGREES, "%s: %s", dump->path, refusal_meaning(PAIR_DISAGREES));
    return fail(PAIR_DISAGREES, "what to do next: %s", refusal_next(PAIR_DISAGREES));
}
