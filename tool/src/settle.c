/* The setting of a dump: what is given is used, the rest is found, and the library judges. */
#include "settle.h"

#include <stdio.h>

#include "faults.h"
#include "finder.h"
#include "library.h"
#include "status.h"

enum { SMALLEST_GRANULE = 4096, LENGTH_MAX = 268435456, LISTED_MAX = 16, EQUAL_ADDRESSES = 3 };

static const size_t larger_granules[] = {32768, 65536};

/* 0 if the library reads the flash with this setting, else its refusal. */
static uint8_t judged(const struct flash *flash) {
    uint32_t row[DELUNKPAWI_ORDER_MAX];
    size_t count;
    return delunkpawi_order(FLASH(flash), row, DELUNKPAWI_ORDER_MAX, &count);
}

static size_t granule_of(const struct dump *dump, const struct options *options) {
    if (options->granule.is_given) return options->granule.value;
    return dump->is_device ? dump->erase_size : SMALLEST_GRANULE;
}

/* Lays the dump by a setting and has the library judge it. */
static int try_setting(struct flash *flash, const struct dump *dump, size_t granule, struct setting setting,
                       uint8_t *refused) {
    int status = flash_lay(flash, dump, setting.base);
    flash->granule = granule;
    flash->spt0 = setting.spt0;
    flash->spt1 = setting.spt1;
    if (status == DONE) *refused = judged(flash);
    return status;
}

/* Says where a larger granule, if the flash has it, would read another copy. */
static void compare_granules(const struct dump *dump, const struct flash *flash) {
    size_t cpb0, cpb1, table, pointers, other_table, other_pointers;
    if (delunkpawi_view(FLASH(flash), &cpb0, &cpb1, &table, &pointers) != 0) return;
    for (size_t i = 0; i < sizeof larger_granules / sizeof larger_granules[0]; i++) {
        struct flash other = *flash;
        other.granule = larger_granules[i];
        if (delunkpawi_view(FLASH(&other), &cpb0, &cpb1, &other_table, &other_pointers) != 0) continue;
        if (other_table != table || other_pointers != pointers)
            note("%s: with --granule %zu another copy is read: give the granule of this flash", dump->path,
                 other.granule);
    }
}

/* A base that was found by the table at SPT1 alone may be wrong: the dump may begin a block before SPT0. */
static void doubt_base(const struct dump *dump, const struct flash *flash) {
    uint8_t spt0, spt1, cpb0, cpb1, tables, pointers;
    if (flash->base == 0 || delunkpawi_copies(FLASH(flash), &spt0, &spt1, &cpb0, &cpb1, &tables, &pointers) != 0)
        return;
    if (spt0 == 0)
        note("%s: no table stands at SPT0 with this base, so the dump may begin elsewhere: give --base if it does",
             dump->path);
}

static void say_setting(const struct dump *dump, const struct options *options, const struct flash *flash) {
    bool is_found = !options->spt0.is_given || !options->spt1.is_given;
    note("%s: %s --base 0x%zx --spt0 0x%zx --spt1 0x%zx --granule %zu%s", dump->path, is_found ? "found" : "read with",
         flash->base, flash->spt0, flash->spt1, flash->granule,
         options->granule.is_given || dump->is_device ? "" : " (taken for reading)");
    if (!options->granule.is_given && !dump->is_device) compare_granules(dump, flash);
    if (!options->base.is_given) doubt_base(dump, flash);
}

static int fail_with_faults(const char *path, uint8_t refused, const struct faults *faults) {
    fail_refused(path, refused);
    say_faults(faults);
    return refused;
}

/* Both addresses are given. Where no base is, it is 0, or SPT0 if only that is read. */
static int settle_given(struct flash *flash, const struct dump *dump, const struct options *options) {
    struct setting setting = {options->base.value, options->spt0.value, options->spt1.value};
    size_t granule = granule_of(dump, options);
    uint8_t refused = 0, refused_there = 0;
    int status = try_setting(flash, dump, granule, setting, &refused);
    if (status != DONE || refused == 0) return status;
    struct faults faults = faults_of(flash, refused);
    if (options->base.is_given || setting.spt0 % 4096 != 0 || setting.spt0 > LENGTH_MAX || setting.spt0 == 0)
        return fail_with_faults(dump->path, refused, &faults);
    flash_drop(flash);
    setting.base = setting.spt0;
    status = try_setting(flash, dump, granule, setting, &refused_there);
    if (status != DONE || refused_there == 0) return status;
    return fail_with_faults(dump->path, refused, &faults);
}

static bool is_wanted(const struct options *options, struct setting setting) {
    return (!options->spt0.is_given || options->spt0.value == setting.spt0) &&
           (!options->spt1.is_given || options->spt1.value == setting.spt1) && setting.base <= LENGTH_MAX;
}

static void list_setting(struct setting setting, uint8_t refused) {
    fprintf(stderr, "  --base 0x%zx --spt0 0x%zx --spt1 0x%zx", setting.base, setting.spt0, setting.spt1);
    if (refused != 0) fprintf(stderr, "   refused %d: %s", refused, refusal_meaning(refused));
    fputc('\n', stderr);
}

static int fail_none(const struct dump *dump, const struct proposals *proposals, const struct options *options,
                     size_t granule) {
    uint8_t refused = 0;
    size_t listed = 0;
    fail(SETTING, "%s: no table is found by which the library reads this flash%s", dump->path,
         proposals->count > 0 ? ". It refused these:" : "");
    for (size_t i = 0; i < proposals->count && listed < LISTED_MAX; i++) {
        struct flash flash;
        struct faults faults = {0};
        if (!is_wanted(options, proposals->settings[i])) continue;
        if (try_setting(&flash, dump, granule, proposals->settings[i], &refused) == DONE)
            list_setting(proposals->settings[i], refused), listed++, faults = faults_of(&flash, refused);
        say_faults(&faults);
        flash_drop(&flash);
    }
    if (listed > 0) fail(SETTING, "what to do next: %s", refusal_next(refused));
    if (proposals->has_reversed)
        fail(SETTING,
             "at 0x%zx stands a table's magic with its bits reversed: this is a programming file, as .rpd, and must "
             "be converted (the bits of every byte reversed) before it is read here",
             proposals->reversed_at);
    if (proposals->has_other_version)
        fail(SETTING, "at 0x%zx stands a table of another version than 0, which is not read here",
             proposals->other_version_at);
    if (listed == 0 && !proposals->has_reversed)
        fail(SETTING,
             "what to do next: read the flash again, whole or from SPT0 on, or give --base, --spt0 and --spt1 from the "
             "box's record");
    return SETTING;
}

static int fail_several(const struct dump *dump, const struct setting *found, size_t count) {
    fail(SETTING, "%s: %zu settings are found. Give the options of the one that is meant:", dump->path, count);
    for (size_t i = 0; i < count && i < LISTED_MAX; i++) list_setting(found[i], 0);
    return SETTING;
}

/* Has the library judge each proposal: those that it reads come to the front. */
static int judge_all(const struct dump *dump, const struct options *options, size_t granule,
                     struct proposals *proposals, size_t *read) {
    int status = DONE;
    *read = 0;
    for (size_t i = 0; i < proposals->count && status == DONE; i++) {
        struct flash flash;
        struct setting setting = proposals->settings[i];
        uint8_t refused = 1;
        if (!is_wanted(options, setting)) continue;
        status = try_setting(&flash, dump, granule, setting, &refused);
        flash_drop(&flash);
        if (status != DONE || refused != 0) continue;
        proposals->settings[i] = proposals->settings[*read];
        proposals->settings[(*read)++] = setting;
    }
    return status;
}

static int settle_found(struct flash *flash, const struct dump *dump, const struct options *options) {
    struct proposals proposals;
    size_t read = 0, granule = granule_of(dump, options);
    uint8_t refused;
    int status = propose(&proposals, dump, &options->base);
    if (status == DONE) status = judge_all(dump, options, granule, &proposals, &read);
    if (status == DONE && read == 0) status = dump_judge_length(dump);
    if (status == DONE && read == 0) status = fail_none(dump, &proposals, options, granule);
    if (status == DONE && read > 1) status = fail_several(dump, proposals.settings, read);
    if (status == DONE) status = try_setting(flash, dump, granule, proposals.settings[0], &refused);
    proposals_drop(&proposals);
    return status;
}

int settle(struct flash *flash, const struct dump *dump, const struct options *options) {
    /* Equal addresses are refused, and nothing is read for it: a lower number is about length or granule alone. */
    struct flash bare = {.bytes = (uint8_t *)"", .length = dump->length, .granule = granule_of(dump, options)};
    uint8_t refused = judged(&bare);
    *flash = (struct flash){0};
    if (refused != EQUAL_ADDRESSES) return fail_refused(dump->path, refused);
    int status = options->spt0.is_given && options->spt1.is_given ? settle_given(flash, dump, options)
                                                                  : settle_found(flash, dump, options);
    if (status == DONE) say_setting(dump, options, flash);
    return status;
}
