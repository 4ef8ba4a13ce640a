/* Messages: what went wrong, and what a refusal means. */
#include "status.h"

#include <errno.h>
#include <stdarg.h>
#include <stdio.h>
#include <string.h>

bool quiet;

static void say(const char *format, va_list words) {
    fflush(stdout);
    fputs("rsu-image: ", stderr);
    vfprintf(stderr, format, words);
    fputc('\n', stderr);
}

int fail(int status, const char *format, ...) {
    va_list words;
    va_start(words, format);
    say(format, words);
    va_end(words);
    return status;
}

int fail_at(const char *path) {
    return fail(INPUT_OUTPUT, "%s: %s", path, strerror(errno));
}

void note(const char *format, ...) {
    va_list words;
    if (quiet) return;
    va_start(words, format);
    say(format, words);
    va_end(words);
}

static const struct refusal {
    int number;
    const char *meaning, *next;
} refusals[] = {
#include "refusals.inc" /* made of docs/REFUSALS.md by tool/build */
};

static const struct refusal *refusal(int number) {
    static const struct refusal unknown = {0, "docs/REFUSALS.md does not have this number.",
                                           "Ask who built this tool."};
    for (size_t i = 0; i < sizeof refusals / sizeof refusals[0]; i++)
        if (refusals[i].number == number) return &refusals[i];
    return &unknown;
}

const char *refusal_meaning(int number) {
    return refusal(number)->meaning;
}

const char *refusal_next(int number) {
    return refusal(number)->next;
}

int fail_refused(const char *path, int number) {
    fail(number, "%s: refused %d: %s", path, number, refusal_meaning(number));
    return fail(number, "what to do next: %s", refusal_next(number));
}
