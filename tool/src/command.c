/* A command: what it would do, and its job written out if that is asked for. */
#include "command.h"

#include <inttypes.h>
#include <stdio.h>
#include <string.h>

#include "explain.h"
#include "library.h"
#include "output.h"
#include "status.h"
#include "work.h"

/* ---- The starts, one for each command. */

uint8_t start_enable(const struct flash *flash, const struct options *options, uint8_t *job) {
    return delunkpawi_enable(FLASH(flash), slot_called(flash, options->words[0]), job, DELUNKPAWI_JOB_SIZE);
}

uint8_t start_disable(const struct flash *flash, const struct options *options, uint8_t *job) {
    return delunkpawi_disable(FLASH(flash), slot_called(flash, options->words[0]), job, DELUNKPAWI_JOB_SIZE);
}

uint8_t start_rename(const struct flash *flash, const struct options *options, uint8_t *job) {
    return delunkpawi_rename(FLASH(flash), slot_called(flash, options->words[0]), (const uint8_t *)options->words[1],
                             strlen(options->words[1]), job, DELUNKPAWI_JOB_SIZE);
}

uint8_t start_create(const struct flash *flash, const struct options *options, uint8_t *job) {
    return delunkpawi_create(FLASH(flash), (const uint8_t *)options->words[0], strlen(options->words[0]),
                             options->length, job, DELUNKPAWI_JOB_SIZE);
}

/* By name alone: after a delete that was cut, a number may already be the next slot's. */
uint8_t start_delete(const struct flash *flash, const struct options *options, uint8_t *job) {
    uint32_t slot = slot_named(flash, options->words[0]);
    if (slot == UINT32_MAX && strspn(options->words[0], "0123456789") > 0)
        fail(DONE, "--delete takes the slot's name and never a number, because numbers move");
    return delunkpawi_delete(FLASH(flash), slot, job, DELUNKPAWI_JOB_SIZE);
}

uint8_t start_repair(const struct flash *flash, const struct options *options, uint8_t *job) {
    (void)options;
    return delunkpawi_repair(FLASH(flash), job, DELUNKPAWI_JOB_SIZE);
}

/* ---- What it would do. */

struct kinds {
    size_t programs, erases;
};

static struct kinds count_kinds(const struct work *work) {
    struct kinds kinds = {0, 0};
    for (size_t i = 0; i < work->step_count; i++)
        if (work->steps[i].kind == ERASE)
            kinds.erases++;
        else
            kinds.programs++;
    return kinds;
}

/* Calls `tell` with each block in the order in which the steps come to it. */
static void each_block(const struct work *work, void (*tell)(int block, bool is_first)) {
    for (size_t i = 0; i < work->step_count; i++)
        if (i == 0 || work->steps[i].block != work->steps[i - 1].block) tell(work->steps[i].block, i == 0);
}

static void print_block(int block, bool is_first) {
    printf("%s%s", is_first ? "" : ", then ", block_names[block]);
}

static void answer_block(int block, bool is_first) {
    (void)is_first;
    json_text(block_names[block]);
}

/* Slots that are new, that are gone, and that have another name. */
static void print_slots(const struct work *work) {
    const struct reading *before = &work->before, *after = &work->after;
    for (size_t slot = 0; slot < before->slot_count; slot++) {
        const struct slot *old = &before->slots[slot], *new = slot_starting(after, old->start);
        if (new == NULL)
            printf("slot %zu:           %s is deleted\n", slot, printed(&old->name));
        else if (!is_same_name(&old->name, &new->name))
            printf("slot %zu:           %s becomes %s\n", slot, printed(&old->name), printed(&new->name));
        if (new == NULL && slot + 1 < before->slot_count)
            printf("slot numbers:     each above %zu becomes one lower\n", slot);
    }
    for (size_t slot = 0; slot < after->slot_count; slot++) {
        const struct slot *new = &after->slots[slot];
        if (slot_starting(before, new->start) == NULL)
            printf("slot %zu:           %s is new, %s bytes at 0x%" PRIx64 "\n", slot, printed(&new->name),
                   grouped(new->size), new->start);
    }
}

static void print_work(const struct work *work) {
    struct kinds kinds = count_kinds(work);
    printf("boot order now:   ");
    print_order(&work->before);
    printf("boot order after: ");
    print_order(&work->after);
    print_slots(work);
    if (work->step_count == 0) {
        puts("0 steps: all is as asked already");
        return;
    }
    printf("%s steps: %s bytes programmed, %s granule%s erased; in ", grouped(work->step_count),
           grouped(kinds.programs), grouped(kinds.erases), kinds.erases == 1 ? "" : "s");
    each_block(work, print_block);
    putchar('\n');
}

static void answer_work(const struct work *work) {
    struct kinds kinds = count_kinds(work);
    json_begin(work->dump, work->flash);
    json_key("command"), json_text(work->options->action->name);
    json_key("before"), json_order(&work->before);
    json_key("after"), json_order(&work->after);
    json_key("slots"), json_slots(&work->after);
    json_key("steps"), json_number(work->step_count);
    json_key("programs"), json_number(kinds.programs);
    json_key("erases"), json_number(kinds.erases);
    json_key("blocks"), json_open('[');
    each_block(work, answer_block);
    json_close(']');
}

/* Later versions of the table have a checksum in bytes 12 to 15, which a rewrite does not renew. */
static void warn_of_checksum(const struct work *work) {
    const uint8_t *table = work->granules[work->layout.is_read[0] ? 0 : 1];
    bool touches_table = false;
    for (size_t i = 0; i < work->step_count; i++) touches_table |= work->steps[i].block < 2;
    if (touches_table && (table[12] | table[13] | table[14] | table[15]) != 0)
        fail(DONE, "warning: bytes 12 to 15 of the table are not zero. Later versions keep a checksum there, which "
                   "this rewrite "
                   "leaves as it is: ask the vendor before you write this to a box");
}

static bool is_erased(const uint8_t *bytes, size_t length) {
    while (length > 0 && bytes[length - 1] == 0xFF) length--;
    return length == 0;
}

/* Create does not look at what stands in the room that it takes, and a slot that is not empty may be enabled. */
static void warn_of_room(const struct work *work) {
    for (size_t slot = 0; slot < work->after.slot_count; slot++) {
        const struct slot *new = &work->after.slots[slot];
        if (slot_starting(&work->before, new->start) != NULL) continue;
        if (new->start < work->flash->base)
            fail(DONE, "warning: %s begins at address 0x%zx, and slot %s before it: what stands there is not known",
                 work->dump->path, work->flash->base, printed(&new->name));
        else if (!is_erased(work->flash->bytes + new->start, new->size))
            fail(DONE,
                 "warning: the room of %s is not erased. Send the image and verify it before you enable the slot: "
                 "else what stands there may start",
                 printed(&new->name));
    }
}

static void tell(struct work *work) {
    if (work->options->json)
        answer_work(work);
    else
        print_work(work);
    warn_of_checksum(work);
    warn_of_room(work);
    if (work->options->explain) explain(work);
    if (!work->options->json) return;
    json_close('}');
    json_end();
}

int do_command(const struct options *options, const struct dump *dump, struct flash *flash) {
    static struct work work;
    work = (struct work){.options = options, .dump = dump, .flash = flash};
    int status = judge_output(options, dump);
    if (status == DONE) status = work_begin(&work);
    if (status == DONE) {
        tell(&work);
        status = write_out(&work);
    }
    work_end(&work);
    return status;
}
