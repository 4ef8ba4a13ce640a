/* Exit statuses beside the numbers of refusals, and what is said on standard error. */
#ifndef STATUS_H
#define STATUS_H

#include <stdbool.h>
#include <stddef.h>

enum status {
    DONE = 0,
    PAIR_DISAGREES = 6,
    USAGE = 120,
    INPUT_OUTPUT = 121,
    SETTING = 122,
};

/* -q: notes are not said. */
extern bool quiet;

/* Says what went wrong, and returns the status. */
int fail(int status, const char *format, ...) __attribute__((format(printf, 2, 3)));

/* Says what errno tells about a file, and returns INPUT_OUTPUT. */
int fail_at(const char *path);

/* Says something that is good to know. */
void note(const char *format, ...) __attribute__((format(printf, 1, 2)));

/* Says what a refusal means and what to do next, and returns its number. */
int fail_refused(const char *path, int number);

/* What a refusal means, and what to do next: the words of docs/REFUSALS.md. */
const char *refusal_meaning(int number);
const char *refusal_next(int number);

#endif
