/* rsu-image: reads and changes dumps of a remote-update flash, by the proved library. */
#define _GNU_SOURCE
#include <signal.h>
#include <stdio.h>
#include <stdlib.h>
#include <string.h>
#include <unistd.h>

#include "actions.h"
#include "library.h"
#include "settle.h"
#include "status.h"

/* A mapped file that becomes shorter is told by this signal when it is read. */
static void became_shorter(int signal) {
    static const char text[] =
        "rsu-image: the image became shorter while it was read, or the disk failed: read the flash again\n";
    (void)signal;
    if (write(STDERR_FILENO, text, sizeof text - 1) < 0) _exit(INPUT_OUTPUT);
    _exit(INPUT_OUTPUT);
}

static void take_signals(void) {
    struct sigaction shorter = {.sa_handler = became_shorter}, ignored = {.sa_handler = SIG_IGN};
    sigaction(SIGBUS, &shorter, NULL);
    sigaction(SIGXFSZ, &ignored, NULL); /* a write past the limit then fails, and is told */
    sigaction(SIGPIPE, &ignored, NULL);
}

static int do_one(const struct options *options, const char *path) {
    struct dump dump;
    struct flash flash = {0};
    int status = dump_open(&dump, path);
    if (status == DONE && options->action->start != NULL && !options->granule.is_given && !dump.is_device)
        status = fail(
            USAGE, "a command needs --granule 4096, 32768 or 65536: look up the erase size of the flash part in use");
    if (status == DONE) status = settle(&flash, &dump, options);
    if (status == DONE) status = options->action->run(options, &dump, &flash);
    flash_drop(&flash);
    dump_close(&dump);
    return status;
}

int main(int argc, char **argv) {
    struct options options;
    take_signals();
    if (delunkpawi_job_size() != DELUNKPAWI_JOB_SIZE)
        return fail(INPUT_OUTPUT, "the header is not this library's: build again");
    int status = options_parse(&options, argc, argv);
    if (status == -1) {
        status = DONE;
        for (size_t i = 0; i < options.image_count; i++) {
            int one = do_one(&options, options.images[i]);
            if (status == DONE) status = one;
        }
    }
    if ((fflush(stdout) != 0 || ferror(stdout)) && status == DONE) status = fail_at("standard output");
    free(options.images);
    return status;
}
