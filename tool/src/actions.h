/* The actions: one row each. */
#ifndef ACTIONS_H
#define ACTIONS_H

#include <stddef.h>
#include <stdint.h>

#include "dump.h"
#include "options.h"

/* Starts a job: 0, or the number of a refusal. */
typedef uint8_t start_job(const struct flash *flash, const struct options *options, uint8_t *job);

struct action {
    const char *name;
    int letter;      /* 0: it has none */
    int words;       /* how many follow it */
    int optional;    /* how many of them may be missing */
    bool has_length; /* the second of them is a length */
    bool many_images;
    int (*run)(const struct options *options, const struct dump *dump, struct flash *flash);
    start_job *start; /* of a command; NULL for what only reads */
};

extern const struct action actions[];
extern const size_t action_count;

#endif
