/* A command at work: the flash before, the job, its steps one by one, the flash after. */
#ifndef WORK_H
#define WORK_H

#include "actions.h"
#include "layout.h"
#include "library.h"
#include "reading.h"

enum step_kind { NONE = 0, PROGRAM = 1, ERASE = 2 };

struct step {
    uint8_t kind, byte;
    int block; /* which of the four */
    size_t address;
};

struct work {
    const struct options *options;
    const struct dump *dump;
    struct flash *flash;  /* as it is by now */
    struct layout layout; /* before */
    struct reading before, after;
    uint8_t job[DELUNKPAWI_JOB_SIZE]; /* as it was started */
    uint8_t *granules[BLOCKS];        /* the four first granules before */
    struct step *steps;
    size_t step_count;
};

/* Reads the flash, starts the job and carries it out in memory. Returns the exit status. */
int work_begin(struct work *work);
void work_end(struct work *work);

/* Puts the flash back to what it was before. */
void work_rewind(struct work *work);

/* The step that a job does next; kind NONE if it is finished. */
uint8_t next_step(const struct work *work, const uint8_t *job, struct step *step);

#endif
