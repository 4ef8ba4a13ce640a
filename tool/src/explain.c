/* --explain: what the power failing at any moment of a job would leave. */
#include "explain.h"

#include <stdio.h>
#include <stdlib.h>
#include <string.h>

#include "library.h"
#include "status.h"

enum { BLOCK_SIZE = 4096, STRETCHES_MAX = 64, REPAIRS_MAX = 8 };

/* How many of the lowest, or of the highest, bytes of a granule are erased when the power fails inside an erase. */
static const size_t erased_lengths[] = {1,    2,    3,    4,    5,    8,     16,    20,    24,
                                        31,   32,   33,   40,   64,   128,   256,   512,   1024,
                                        2048, 4064, 4095, 4096, 8192, 16384, 32767, 32768, 65535};

/* A moment: so many steps done, and perhaps inside the erase that comes next. */
struct moment {
    size_t done;
    bool inside;
};

/* What is read at a moment: a refusal, or the order and the table's bytes. */
struct seen {
    uint8_t refused;
    uint32_t order[SLOTS_MAX];
    size_t order_count;
    uint8_t table[BLOCK_SIZE];
};

/* Moments one after another at which the same is read. */
struct stretch {
    struct moment from, to;
    struct seen seen;
    struct reading reading; /* the same with the names of slots */
};

struct story {
    struct stretch *stretches;
    size_t count, states;
    bool is_cut_short;           /* there were more than STRETCHES_MAX */
    size_t repairs[REPAIRS_MAX]; /* how many steps a repair takes after a cut, each number once, ascending */
    size_t repair_count;
};

static void look(const struct flash *flash, struct seen *seen) {
    size_t cpb0, cpb1, table, pointers;
    memset(seen, 0, sizeof *seen);
    seen->refused = delunkpawi_order(FLASH(flash), seen->order, SLOTS_MAX, &seen->order_count);
    if (seen->refused == 0) seen->refused = delunkpawi_view(FLASH(flash), &cpb0, &cpb1, &table, &pointers);
    if (seen->refused == 0) memcpy(seen->table, flash->bytes + table, BLOCK_SIZE);
}

static bool is_same(const struct seen *one, const struct seen *other) {
    return memcmp(one, other, sizeof *one) == 0;
}

/* Joins what is read now to the last stretch, or begins another. */
static void join(struct story *story, const struct flash *flash, struct moment moment, const struct seen *seen) {
    story->states++;
    if (story->count > 0 && is_same(&story->stretches[story->count - 1].seen, seen)) {
        story->stretches[story->count - 1].to = moment;
    } else if (story->count == STRETCHES_MAX) {
        story->is_cut_short = true;
    } else {
        struct stretch *stretch = &story->stretches[story->count++];
        stretch->from = moment;
        stretch->to = moment;
        stretch->seen = *seen;
        read_flash(flash, &stretch->reading);
    }
}

static void add_repair(struct story *story, size_t steps) {
    size_t at = 0;
    while (at < story->repair_count && story->repairs[at] < steps) at++;
    if (at < story->repair_count && story->repairs[at] == steps) return;
    if (story->repair_count == REPAIRS_MAX) return;
    memmove(story->repairs + at + 1, story->repairs + at, (story->repair_count - at) * sizeof story->repairs[0]);
    story->repairs[at] = steps;
    story->repair_count++;
}

/* How many steps a repair would take here, if the job is begun and not finished. */
static void ask_repair(struct story *story, const struct work *work, struct moment moment) {
    static uint8_t job[DELUNKPAWI_JOB_SIZE];
    size_t steps;
    if (moment.done == work->step_count || (moment.done == 0 && !moment.inside)) return;
    if (delunkpawi_repair(FLASH(work->flash), job, sizeof job) != 0) return;
    if (delunkpawi_remaining(job, sizeof job, &steps) == 0) add_repair(story, steps);
}

static void observe(struct story *story, const struct work *work, size_t done, bool inside) {
    static struct seen seen;
    struct moment moment = {done, inside};
    look(work->flash, &seen);
    join(story, work->flash, moment, &seen);
    ask_repair(story, work, moment);
}

/* Some of the states in which the power may leave a granule whose erase has begun, each of its bytes erased or old: its
 * lowest bytes erased, its highest, every other one. */
static void observe_inside(struct story *story, const struct work *work, size_t done) {
    size_t granule = work->flash->granule;
    uint8_t *bytes = work->flash->bytes + work->steps[done].address;
    uint8_t *old = malloc(granule);
    if (old == NULL) return;
    memcpy(old, bytes, granule);
    for (size_t i = 0; i < sizeof erased_lengths / sizeof erased_lengths[0] && erased_lengths[i] < granule; i++) {
        memset(bytes, 0xFF, erased_lengths[i]);
        observe(story, work, done, true);
        memcpy(bytes, old, granule);
        memset(bytes + granule - erased_lengths[i], 0xFF, erased_lengths[i]);
        observe(story, work, done, true);
        memcpy(bytes, old, granule);
    }
    for (size_t first = 0; first < 2; first++) {
        for (size_t i = first; i < granule; i += 2) bytes[i] = 0xFF;
        observe(story, work, done, true);
        memcpy(bytes, old, granule);
    }
    free(old);
}

static void watch(struct story *story, struct work *work) {
    static uint8_t job[DELUNKPAWI_JOB_SIZE];
    size_t ran;
    work_rewind(work);
    memcpy(job, work->job, sizeof job);
    observe(story, work, 0, false);
    for (size_t done = 0; done < work->step_count; done++) {
        if (work->steps[done].kind == ERASE) observe_inside(story, work, done);
        if (delunkpawi_run(job, sizeof job, work->flash->bytes, work->flash->length, 1, &ran) != 0) return;
        observe(story, work, done + 1, false);
    }
}

/* ---- In words. */

/* The start of the slot that is tried first; UINT64_MAX: the factory image. */
static uint64_t first_start(const struct stretch *stretch) {
    const struct reading *reading = &stretch->reading;
    return reading->order_count > 0 ? reading->slots[reading->order[0]].start : UINT64_MAX;
}

static void print_first(const struct reading *reading) {
    if (reading->order_count > 0)
        fputs(printed(&reading->slots[reading->order[0]].name), stdout);
    else
        fputs("the factory image", stdout);
}

static bool has_same_order(const struct reading *one, const struct reading *other) {
    bool same = one->order_count == other->order_count;
    for (size_t i = 0; same && i < one->order_count; i++)
        same = one->slots[one->order[i]].start == other->slots[other->order[i]].start;
    return same;
}

/* What differs from now although the same slot starts: the order, or else slots and their names. */
static void print_difference(const struct reading *now, const struct reading *then) {
    if (!has_same_order(now, then)) {
        printf("; the boot order is then: ");
        print_order(then);
        return;
    }
    for (size_t slot = 0; slot < now->slot_count; slot++) {
        const struct slot *old = &now->slots[slot], *new = slot_starting(then, old->start);
        if (new == NULL)
            printf("; %s is then deleted", printed(&old->name));
        else if (!is_same_name(&old->name, &new->name))
            printf("; slot %zu is then named %s", slot, printed(&new->name));
    }
    for (size_t slot = 0; slot < then->slot_count; slot++)
        if (slot_starting(now, then->slots[slot].start) == NULL)
            printf("; slot %zu is then %s, which is new", slot, printed(&then->slots[slot].name));
    putchar('\n');
}

/* What is read in a stretch, as against what is read now. */
static void print_seen(const struct stretch *now, const struct stretch *stretch) {
    if (stretch->seen.refused != 0) {
        printf("NOTHING CAN BE READ (refused %d: %s)\n", stretch->seen.refused, refusal_meaning(stretch->seen.refused));
        return;
    }
    print_first(first_start(now) == first_start(stretch) ? &now->reading : &stretch->reading);
    fputs(first_start(now) == first_start(stretch) ? " starts, as now" : " starts", stdout);
    if (first_start(now) == first_start(stretch) && !is_same(&now->seen, &stretch->seen))
        print_difference(&now->reading, &stretch->reading);
    else
        putchar('\n');
}

/* When a stretch begins and ends, as against its neighbours. */
static void print_when(const struct story *story, const struct work *work, size_t at) {
    const struct stretch *stretch = &story->stretches[at];
    const char *count = grouped(work->step_count);
    if (story->count == 1)
        printf("power fails at any moment: ");
    else if (at == 0 && stretch->to.inside)
        printf("power fails before the end of step %s of %s: ", grouped(stretch->to.done + 1), count);
    else if (at == 0)
        printf("power fails before step %s of %s: ", grouped(stretch->to.done + 1), count);
    else if (at + 1 == story->count && stretch->from.inside)
        printf("inside it, an erase, or after it: ");
    else if (at + 1 == story->count)
        printf("after it: ");
    else
        printf("%s step %s, up to %s step %s: ", stretch->from.inside ? "inside" : "after",
               grouped(stretch->from.done + stretch->from.inside), stretch->to.inside ? "inside" : "after",
               grouped(stretch->to.done + stretch->to.inside));
}

/* Only what starts now and what starts after the job ever starts. */
static bool is_one_or_other(const struct story *story) {
    uint64_t now = first_start(&story->stretches[0]), after = first_start(&story->stretches[story->count - 1]);
    bool holds = !story->is_cut_short;
    for (size_t i = 0; i < story->count; i++) {
        uint64_t first = first_start(&story->stretches[i]);
        holds = holds && story->stretches[i].seen.refused == 0 && (first == now || first == after);
    }
    return holds;
}

static void print_story(const struct story *story, const struct work *work) {
    for (size_t i = 0; i < story->count; i++) {
        print_when(story, work, i);
        print_seen(&story->stretches[0], &story->stretches[i]);
    }
    puts(is_one_or_other(story) ? "no other slot can start first"
                                : "ANOTHER SLOT, OR NONE, CAN START FIRST: do not run this");
    for (size_t i = 0; i < story->repair_count; i++)
        printf("%s%s%s", i == 0 ? "then: repair, " : " or ", grouped(story->repairs[i]),
               i + 1 == story->repair_count ? " steps\n" : "");
    printf("(%s states of the flash were read: before and after every step, and inside every erase)\n",
           grouped(story->states));
}

/* ---- In JSON. */

static void answer_moment(const char *key, struct moment moment) {
    json_key(key), json_open('{');
    json_key("steps_done"), json_number(moment.done);
    json_key("inside_erase"), json_bool(moment.inside);
    json_close('}');
}

static void answer_story(const struct story *story) {
    json_key("explain"), json_open('{');
    json_key("states"), json_number(story->states);
    json_key("stretches"), json_open('[');
    for (size_t i = 0; i < story->count; i++) {
        const struct stretch *stretch = &story->stretches[i];
        json_open('{');
        answer_moment("from", stretch->from);
        answer_moment("to", stretch->to);
        json_key("refused"), json_number(stretch->seen.refused);
        json_key("as_now"), json_bool(is_same(&stretch->seen, &story->stretches[0].seen));
        json_key("order"), json_order(&stretch->reading);
        json_close('}');
    }
    json_close(']');
    json_key("no_other_slot_first"), json_bool(is_one_or_other(story));
    json_key("repair_steps"), json_open('[');
    for (size_t i = 0; i < story->repair_count; i++) json_number(story->repairs[i]);
    json_close(']'), json_close('}');
}

void explain(struct work *work) {
    struct story story = {.stretches = calloc(STRETCHES_MAX, sizeof(struct stretch))};
    if (story.stretches == NULL) {
        fail(INPUT_OUTPUT, "no memory to explain");
        return;
    }
    watch(&story, work);
    if (work->options->json)
        answer_story(&story);
    else
        print_story(&story, work);
    free(story.stretches);
}
