/* Finding where the tables of a dump stand: magic and version at every multiple of 4,096. */
#include "finder.h"

#include <stdlib.h>
#include <string.h>

#include "status.h"

enum { STRIDE = 4096, MAGIC = 0x57713427, ROWS_MAX = 127, ROW = 32, FIRST_ROW = 32 };
enum { NAME_SIZE = 16, START_AT = 16, COUNT_AT = 8 };

/* The magic with the bits of each byte reversed, as programming files have it. */
static const uint32_t reversed_magic = 0xEA8E2CE4;

static uint64_t little_endian(const uint8_t *bytes, int count) {
    uint64_t value = 0;
    for (int i = count - 1; i >= 0; i--) value = value << 8 | bytes[i];
    return value;
}

/* The start that a table gives an entry. */
static bool start_of(const uint8_t *table, const char *name, size_t *start) {
    uint64_t rows = little_endian(table + COUNT_AT, 4);
    for (uint64_t row = 0; row < rows && row < ROWS_MAX; row++) {
        const uint8_t *entry = table + FIRST_ROW + ROW * row;
        if (strncmp((const char *)entry, name, NAME_SIZE) != 0) continue;
        *start = little_endian(entry + START_AT, 8);
        return true;
    }
    return false;
}

static int add(struct proposals *proposals, struct setting setting) {
    if (proposals->count == proposals->room) {
        size_t room = 2 * proposals->room + 16;
        struct setting *more = realloc(proposals->settings, room * sizeof *more);
        if (more == NULL) return fail(INPUT_OUTPUT, "no memory");
        proposals->settings = more;
        proposals->room = room;
    }
    proposals->settings[proposals->count++] = setting;
    return DONE;
}

/* Adds the setting with this base if it puts the table at `at` of the file where the table says it is. */
static int add_with_base(struct proposals *proposals, size_t at, size_t base, size_t spt0, size_t spt1) {
    if (base % STRIDE != 0 || (base + at != spt0 && base + at != spt1)) return DONE;
    return add(proposals, (struct setting){base, spt0, spt1});
}

static int add_table(struct proposals *proposals, const uint8_t *table, size_t at, const struct given *base) {
    size_t spt0, spt1;
    if (!start_of(table, "SPT0", &spt0) || !start_of(table, "SPT1", &spt1)) return DONE;
    if (base->is_given) return add_with_base(proposals, at, base->value, spt0, spt1);
    int status = add_with_base(proposals, at, 0, spt0, spt1);
    if (status == DONE && spt0 != 0) status = add_with_base(proposals, at, spt0, spt0, spt1);
    return status;
}

static int look_at(struct proposals *proposals, const uint8_t *bytes, size_t at, const struct given *base) {
    uint32_t magic = (uint32_t)little_endian(bytes, 4), version = (uint32_t)little_endian(bytes + 4, 4);
    if (magic == MAGIC && version == 0) return add_table(proposals, bytes, at, base);
    if (magic == MAGIC && !proposals->has_other_version) {
        proposals->has_other_version = true;
        proposals->other_version_at = at;
    }
    if (magic == reversed_magic && !proposals->has_reversed) {
        proposals->has_reversed = true;
        proposals->reversed_at = at;
    }
    return DONE;
}

static int compare_numbers(size_t left, size_t right) {
    return (left > right) - (left < right);
}

static int compare(const void *left, const void *right) {
    const struct setting *one = left, *other = right;
    int order = compare_numbers(one->base, other->base);
    if (order == 0) order = compare_numbers(one->spt0, other->spt0);
    return order != 0 ? order : compare_numbers(one->spt1, other->spt1);
}

/* Candidates with the same setting are one. */
static void keep_each_once(struct proposals *proposals) {
    size_t kept = 0;
    if (proposals->count > 1) qsort(proposals->settings, proposals->count, sizeof *proposals->settings, compare);
    for (size_t i = 0; i < proposals->count; i++)
        if (kept == 0 || compare(&proposals->settings[kept - 1], &proposals->settings[i]) != 0)
            proposals->settings[kept++] = proposals->settings[i];
    proposals->count = kept;
}

int propose(struct proposals *proposals, const struct dump *dump, const struct given *base) {
    struct flash file;
    size_t at = 0, data, end;
    int status = flash_lay(&file, dump, 0);
    *proposals = (struct proposals){0};
    while (status == DONE && at < dump->length && dump_next_data(dump, at, &data, &end))
        for (at = data / STRIDE * STRIDE; status == DONE && at < end; at += STRIDE)
            if (at + STRIDE <= dump->length) status = look_at(proposals, file.bytes + at, at, base);
    flash_drop(&file);
    keep_each_once(proposals);
    return status;
}

void proposals_drop(struct proposals *proposals) {
    free(proposals->settings);
    *proposals = (struct proposals){0};
}
