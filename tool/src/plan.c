/* --steps: a job as a plan that apply-steps carries out. Addresses are offsets in the file or device. */
#define _POSIX_C_SOURCE 200809L
#include "plan.h"

#include <stdio.h>
#include <stdlib.h>
#include <string.h>

#include "apply-steps.h"

static const char *const keys[BLOCKS] = {"spt0", "spt1", "cpb0", "cpb1"};

static void put_lines(FILE *out, const struct work *work) {
    for (size_t i = 0; i < work->step_count; i++) {
        const struct step *step = &work->steps[i];
        size_t offset = step->address - work->flash->base;
        if (step->kind == ERASE)
            fprintf(out, "erase 0x%zx\n", offset);
        else
            fprintf(out, "program 0x%zx 0x%02x\n", offset, step->byte);
    }
}

static void put_header(FILE *out, const struct work *work, const char *lines, size_t length) {
    size_t granules[BLOCKS];
    char hex[65];
    fprintf(out, "rsu-image plan 1\nlength %zu\nbase 0x%zx\ngranule %zu\n", work->dump->length, work->flash->base,
            work->flash->granule);
    for (int block = 0; block < BLOCKS; block++) {
        fprintf(out, "%s 0x%zx\n", keys[block], work->layout.block[block] - work->flash->base);
        granules[block] = work->flash->granule;
    }
    digest_hex((const uint8_t *const *)work->granules, granules, BLOCKS, hex);
    fprintf(out, "steps %zu\nbefore %s\n", work->step_count, hex);
    digest_hex((const uint8_t *const[]){(const uint8_t *)lines}, &length, 1, hex);
    fprintf(out, "lines %s\n", hex);
}

char *plan_text(const struct work *work, size_t *length) {
    char *lines = NULL, *text = NULL;
    size_t lines_length = 0;
    FILE *out = open_memstream(&lines, &lines_length);
    if (out == NULL) return NULL;
    put_lines(out, work);
    if (fclose(out) != 0 || (out = open_memstream(&text, length)) == NULL) {
        free(lines);
        return NULL;
    }
    put_header(out, work, lines, lines_length);
    fwrite(lines, 1, lines_length, out);
    free(lines);
    if (fclose(out) == 0) return text;
    free(text);
    return NULL;
}
