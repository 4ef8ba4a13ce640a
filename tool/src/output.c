/* Writing a job out: a changed copy, the image itself, a plan, or the device. */
#define _GNU_SOURCE
#include "output.h"

#include <stdio.h>
#include <stdlib.h>
#include <string.h>
#include <sys/stat.h>
#include <unistd.h>

#include "apply-steps.h"
#include "newfile.h"
#include "plan.h"
#include "status.h"

static mode_t usual_mode(void) {
    mode_t mask = umask(0);
    umask(mask);
    return 0666 & ~mask;
}

/* The image as it is after the job. Holes of the file stay holes. */
static int write_image(struct newfile *new, const struct work *work) {
    const uint8_t *file = work->flash->bytes + work->flash->base;
    size_t at = 0, data, end;
    int status = DONE;
    if (new->written == NULL) return newfile_write(new, file, work->dump->length, 0);
    if (ftruncate(new->file, (off_t)work->dump->length) != 0) return fail_at(new->path);
    for (; status == DONE && at < work->dump->length && dump_next_data(work->dump, at, &data, &end); at = end)
        status = newfile_write(new, file + data, end - data, data);
    for (int block = 0; block < BLOCKS && status == DONE; block++) {
        size_t offset = work->layout.block[block] - work->flash->base;
        status = newfile_write(new, file + offset, work->flash->granule, offset);
    }
    return status == DONE ? dump_judge_length(work->dump) : status;
}

static bool is_same_file(const struct dump *dump, const char *path) {
    struct stat one, other;
    return stat(dump->path, &one) == 0 && stat(path, &other) == 0 && one.st_dev == other.st_dev &&
           one.st_ino == other.st_ino;
}

int judge_output(const struct options *options, const struct dump *dump) {
    const char *path = options->output_path;
    if (path != NULL && is_same_file(dump, path))
        return fail(USAGE, "%s is the image itself: give --in-place, or another name", path);
    if (options->output == DEVICE && !dump->is_device)
        return fail(USAGE, "%s is no device: give -o FILE or --in-place", dump->path);
    if (options->output == IN_PLACE && dump->is_device) return fail(USAGE, "%s is a device: give --device", dump->path);
    if (options->output == IN_PLACE && ((dump->mode & 0222) == 0 || access(dump->path, W_OK) != 0))
        return fail(INPUT_OUTPUT, "%s may not be written to: change its mode, or give -o FILE", dump->path);
    return DONE;
}

static int write_copy(const struct work *work) {
    const char *path = work->options->output_path;
    struct newfile new;
    int status = newfile_begin(&new, path, usual_mode());
    if (status == DONE) status = write_image(&new, work);
    if (status == DONE) status = newfile_finish(&new);
    newfile_drop(&new);
    if (status == DONE) note("%s is written", path);
    return status;
}

static int replace(const struct work *work, const char *path, const char *backup) {
    struct newfile new;
    struct stat facts;
    int status = newfile_begin(&new, path, work->dump->mode);
    if (status == DONE) status = write_image(&new, work);
    if (status == DONE && (fstat(work->dump->file, &facts) != 0 || fchown(new.file, facts.st_uid, facts.st_gid) != 0))
        note("%s gets another owner", path);
    if (status == DONE && fsync(new.file) != 0) status = fail_at(path);
    if (status == DONE) status = keep_as(path, backup, work->dump->file, work->dump->length, work->dump->mode);
    if (status == DONE) status = newfile_finish(&new);
    newfile_drop(&new);
    if (status == DONE) note("%s is changed; as it was it is kept as %s", path, backup);
    return status;
}

/* Where the image itself is, if it was named by a link. */
static char *own_path(const char *path) {
    struct stat facts;
    return lstat(path, &facts) == 0 && S_ISLNK(facts.st_mode) ? realpath(path, NULL) : strdup(path);
}

static int write_in_place(const struct work *work) {
    char *path = own_path(work->dump->path), *backup = NULL;
    int status = DONE;
    if (path == NULL) return fail_at(work->dump->path);
    if (asprintf(&backup, "%s.bak", path) < 0) {
        backup = NULL;
        status = fail(INPUT_OUTPUT, "no memory");
    }
    if (status == DONE) status = replace(work, path, backup);
    free(backup);
    free(path);
    return status;
}

static int write_plan(const struct work *work, const char *text, size_t length) {
    const char *path = work->options->output_path;
    struct newfile new;
    int status = newfile_begin(&new, path, usual_mode());
    if (status == DONE) status = newfile_write(&new, text, length, 0);
    if (status == DONE) status = newfile_finish(&new);
    newfile_drop(&new);
    if (status == DONE) note("%s is written: carry it out with apply-steps %s TARGET", path, path);
    return status;
}

static int run_on_device(const struct work *work, char *text, size_t length) {
    if (work->step_count == 0) return DONE;
    FILE *plan = fmemopen(text, length, "r");
    if (plan == NULL) return fail(INPUT_OUTPUT, "no memory");
    int status = apply_steps(plan, work->dump->path, 0);
    fclose(plan);
    return status;
}

int write_out(struct work *work) {
    enum output output = work->options->output;
    if (output == DRY_RUN) {
        if (work->step_count > 0) note("nothing is written: -o FILE, --in-place, --steps FILE or --device does it");
        return DONE;
    }
    if (output == COPY) return write_copy(work);
    if (output == IN_PLACE) return work->step_count == 0 ? DONE : write_in_place(work);
    size_t length = 0;
    char *text = plan_text(work, &length);
    if (text == NULL) return fail(INPUT_OUTPUT, "no memory");
    int status = output == STEPS ? write_plan(work, text, length) : run_on_device(work, text, length);
    free(text);
    return status;
}
