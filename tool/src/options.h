/* The command line. */
#ifndef OPTIONS_H
#define OPTIONS_H

#include <stdbool.h>
#include <stddef.h>
#include <stdint.h>

struct action;

enum output { DRY_RUN, COPY, IN_PLACE, STEPS, DEVICE };

/* A number of the setting that may be given. */
struct given {
    bool is_given;
    size_t value;
};

struct options {
    const struct action *action;
    const char *words[2]; /* what follows the action: SLOT, NAME, LENGTH; NULL where none */
    uint32_t length;      /* the number that LENGTH is */
    char **images;
    size_t image_count;
    struct given base, spt0, spt1, granule;
    enum output output;
    const char *output_path;
    bool explain, json;
};

/* Parses the command line. Returns -1 if there is an action to do, else the exit status. */
int options_parse(struct options *options, int argc, char **argv);

#endif
