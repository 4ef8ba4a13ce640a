/* A command at work: the flash before, the job, its steps one by one, the flash after. */
#include "work.h"

#include <inttypes.h>
#include <stdlib.h>
#include <string.h>

#include "status.h"

/* The refusal of a slot whose first 4,096 bytes are all 0xFF. */
enum { EMPTY_SLOT = 14 };

static int refuse(const struct work *work, uint8_t number) {
    return answer_refused(work->dump, work->options->json, number);
}

/* Nothing is written below the base: all four blocks must be in the dump. */
static int judge_base(const struct work *work) {
    for (int block = 0; block < BLOCKS; block++)
        if (work->layout.block[block] < work->flash->base)
            return fail(SETTING,
                        "%s begins at address 0x%zx, and %s stands before it, at 0x%zx: read a dump that has all four "
                        "blocks",
                        work->dump->path, work->flash->base, block_names[block], work->layout.block[block]);
    return DONE;
}

/* Below the base the flash is taken as erased, so that a slot there looks empty whether it is or not. */
static int refuse_start(const struct work *work, uint8_t number) {
    const struct slot *slots = work->before.slots;
    uint32_t slot = number == EMPTY_SLOT ? slot_called(work->flash, work->options->words[0]) : UINT32_MAX;
    if (slot >= work->before.slot_count || slots[slot].start >= work->flash->base) return refuse(work, number);
    return fail(SETTING,
                "%s begins at address 0x%zx, and slot %s before it, at 0x%" PRIx64
                ": whether the slot is empty is not known. Read a dump that has it",
                work->dump->path, work->flash->base, printed(&slots[slot].name), slots[slot].start);
}

static int keep_granules(struct work *work) {
    for (int block = 0; block < BLOCKS; block++) {
        work->granules[block] = malloc(work->flash->granule);
        if (work->granules[block] == NULL) return fail(INPUT_OUTPUT, "no memory");
        memcpy(work->granules[block], work->flash->bytes + work->layout.block[block], work->flash->granule);
    }
    return DONE;
}

void work_rewind(struct work *work) {
    for (int block = 0; block < BLOCKS; block++)
        memcpy(work->flash->bytes + work->layout.block[block], work->granules[block], work->flash->granule);
}

static int block_of(const struct work *work, size_t address) {
    int block = 0;
    while (block < BLOCKS - 1 &&
           (address < work->layout.block[block] || address - work->layout.block[block] >= work->flash->granule))
        block++;
    return block;
}

uint8_t next_step(const struct work *work, const uint8_t *job, struct step *step) {
    uint8_t refused = delunkpawi_next_step(job, DELUNKPAWI_JOB_SIZE, &step->kind, &step->address, &step->byte);
    step->block = refused == 0 && step->kind != NONE ? block_of(work, step->address) : 0;
    return refused;
}

/* Carries the whole job out, noting each step before it is done. */
static int carry_out(struct work *work) {
    static uint8_t job[DELUNKPAWI_JOB_SIZE];
    size_t done;
    uint8_t refused = delunkpawi_remaining(work->job, sizeof work->job, &work->step_count);
    if (refused != 0) return refuse(work, refused);
    memcpy(job, work->job, sizeof job);
    work->steps = calloc(work->step_count + 1, sizeof *work->steps);
    if (work->steps == NULL) return fail(INPUT_OUTPUT, "no memory");
    for (size_t i = 0; i < work->step_count && refused == 0; i++) {
        refused = next_step(work, job, &work->steps[i]);
        if (refused == 0) refused = delunkpawi_run(job, sizeof job, work->flash->bytes, work->flash->length, 1, &done);
    }
    if (refused == 0) refused = read_flash(work->flash, &work->after);
    return refused == 0 ? DONE : refuse(work, refused);
}

int work_begin(struct work *work) {
    uint8_t refused = read_layout(work->flash, &work->layout);
    if (refused == 0) refused = read_flash(work->flash, &work->before);
    if (refused != 0) return refuse(work, refused);
    refused = work->options->action->start(work->flash, work->options, work->job);
    if (refused != 0) return refuse_start(work, refused);
    int status = judge_base(work);
    if (status == DONE) status = keep_granules(work);
    return status == DONE ? carry_out(work) : status;
}

void work_end(struct work *work) {
    for (int block = 0; block < BLOCKS; block++) free(work->granules[block]);
    free(work->steps);
}
