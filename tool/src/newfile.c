/* A file written whole beside its place and then put there, so that a reader meets the old one or the new one. */
#define _GNU_SOURCE
#include "newfile.h"

#include <errno.h>
#include <fcntl.h>
#include <libgen.h>
#include <stdio.h>
#include <stdlib.h>
#include <string.h>
#include <sys/stat.h>
#include <unistd.h>

#include "status.h"

enum { PIECE = 1 << 16 };

static bool is_special(const char *path) {
    struct stat facts;
    return stat(path, &facts) == 0 && !S_ISREG(facts.st_mode) && !S_ISDIR(facts.st_mode);
}

int newfile_begin(struct newfile *new, const char *path, mode_t mode) {
    *new = (struct newfile){.path = path, .file = -1};
    if (is_special(path)) {
        new->file = open(path, O_WRONLY | O_CLOEXEC);
        return new->file < 0 ? fail_at(path) : DONE;
    }
    if (asprintf(&new->written, "%s.XXXXXX", path) < 0) {
        new->written = NULL;
        return fail(INPUT_OUTPUT, "no memory");
    }
    new->file = mkostemp(new->written, O_CLOEXEC);
    if (new->file < 0) {
        free(new->written);
        new->written = NULL;
        return fail_at(path);
    }
    return fchmod(new->file, mode) == 0 ? DONE : fail_at(path);
}

int newfile_write(struct newfile *new, const void *bytes, size_t length, size_t at) {
    for (size_t done = 0; done < length;) {
        const char *from = (const char *)bytes + done;
        ssize_t put = new->written != NULL ? pwrite(new->file, from, length - done, (off_t)(at + done))
                                           : write(new->file, from, length - done);
        if (put < 0 && errno == EINTR) continue;
        if (put < 0 && errno == EFAULT) return fail(INPUT_OUTPUT, "the image became shorter while it was read");
        if (put <= 0) return fail_at(new->path);
        done += (size_t)put;
    }
    return DONE;
}

/* A folder's entries reach the disk when the folder is synced. Where that cannot be done, nothing more can. */
static void sync_folder(const char *path) {
    char *copy = strdup(path);
    if (copy == NULL) return;
    int folder = open(dirname(copy), O_RDONLY | O_DIRECTORY | O_CLOEXEC);
    if (folder >= 0) {
        fsync(folder);
        close(folder);
    }
    free(copy);
}

int newfile_finish(struct newfile *new) {
    if (new->written != NULL && fsync(new->file) != 0) return fail_at(new->path);
    int closed = close(new->file);
    new->file = -1;
    if (closed != 0) return fail_at(new->path);
    if (new->written == NULL) return DONE;
    if (rename(new->written, new->path) != 0) return fail_at(new->path);
    free(new->written);
    new->written = NULL;
    sync_folder(new->path);
    return DONE;
}

void newfile_drop(struct newfile *new) {
    if (new->file >= 0) close(new->file);
    if (new->written != NULL) unlink(new->written);
    free(new->written);
    *new = (struct newfile){.file = -1};
}

static int copy_as(const char *second, int file, size_t length, mode_t mode) {
    static char piece[PIECE];
    struct newfile new;
    int status = newfile_begin(&new, second, mode);
    for (size_t at = 0; at < length && status == DONE;) {
        ssize_t got = pread(file, piece, sizeof piece, (off_t)at);
        if (got < 0 && errno == EINTR) continue;
        status = got <= 0 ? fail(INPUT_OUTPUT, "the image cannot be read again")
                          : newfile_write(&new, piece, (size_t)got, at);
        at += got > 0 ? (size_t)got : 0;
    }
    if (status == DONE) status = newfile_finish(&new);
    newfile_drop(&new);
    return status;
}

int keep_as(const char *path, const char *second, int file, size_t length, mode_t mode) {
    char *link_name;
    if (asprintf(&link_name, "%s.%ld", second, (long)getpid()) < 0) return fail(INPUT_OUTPUT, "no memory");
    bool is_linked = link(path, link_name) == 0;
    int status = DONE;
    if (!is_linked)
        status = copy_as(second, file, length, mode);
    else if (rename(link_name, second) != 0)
        status = fail_at(second);
    /* Where both are names of one file, rename leaves both. */
    if (is_linked) unlink(link_name);
    free(link_name);
    return status;
}
