/* A file written whole beside its place and then put there, so that a reader meets the old one or the new one. */
#ifndef NEWFILE_H
#define NEWFILE_H

#include <stdbool.h>
#include <stddef.h>
#include <sys/types.h>

struct newfile {
    const char *path; /* where it goes */
    char *written;    /* where it is until then; NULL if it is written in place, as a pipe is */
    int file;
};

/* Each returns the exit status, and says what went wrong. */
int newfile_begin(struct newfile *new, const char *path, mode_t mode);
int newfile_write(struct newfile *new, const void *bytes, size_t length, size_t at);
int newfile_finish(struct newfile *new);

/* Drops what is not finished. */
void newfile_drop(struct newfile *new);

/* Gives a file a second name, in place of what had it; or a copy of it, where a file can have one name only. */
int keep_as(const char *path, const char *second, int file, size_t length, mode_t mode);

#endif
