/* Planted faults for tool/power-cuts: linked between rsu-image and apply_steps (-Wl,--wrap=apply_steps), so that the
 * steps of a sound plan are carried out in a wrong way. Never in the tool that people get. */
#define _POSIX_C_SOURCE 200809L
#include <fcntl.h>
#include <mtd/mtd-user.h>
#include <stdio.h>
#include <stdlib.h>
#include <string.h>
#include <sys/ioctl.h>
#include <time.h>
#include <unistd.h>

#include "apply-steps.h"

enum { LINES_MAX = 1 << 15, BLOCK = 4096 };

struct step {
    int erases;
    unsigned long address, byte;
};

struct plan {
    char header[2048];
    struct step steps[LINES_MAX];
    size_t count;
    unsigned long granule;
};

int __real_apply_steps(FILE *plan_file, const char *target_path, int progress);
int __wrap_apply_steps(FILE *plan_file, const char *target_path, int progress);

static struct plan plan;

static void read_line(const char *line) {
    struct step *step = &plan.steps[plan.count];
    if (sscanf(line, "erase %lx", &step->address) == 1)
        step->erases = 1, plan.count++;
    else if (sscanf(line, "program %lx %lx", &step->address, &step->byte) == 2)
        plan.count++;
    else if (strncmp(line, "lines ", 6) != 0)
        strcat(plan.header, line);
    sscanf(line, "granule %lu", &plan.granule);
}

static void read_plan(FILE *file) {
    char line[256];
    while (plan.count < LINES_MAX && fgets(line, sizeof line, file) != NULL) read_line(line);
}

static unsigned long block_of(const struct step *step) {
    return step->address / plan.granule;
}

/* The end of the steps that begin here and stand in one block. */
static inline size_t block_end(size_t from) {
    size_t end = from + 1;
    while (end < plan.count && block_of(&plan.steps[end]) == block_of(&plan.steps[from]) && !plan.steps[end].erases) end++;
    return end;
}

#if defined FAULT_MAGIC_FIRST
/* In each block that is erased, the four bytes that come last come first. */
static void plant(void) {
    for (size_t i = 0; i < plan.count; i++) {
        if (!plan.steps[i].erases) continue;
        struct step magic[4];
        size_t end = block_end(i);
        memcpy(magic, &plan.steps[end - 4], sizeof magic);
        memmove(&plan.steps[i + 5], &plan.steps[i + 1], (end - i - 5) * sizeof magic[0]);
        memcpy(&plan.steps[i + 1], magic, sizeof magic);
    }
}
#elif defined FAULT_CPB0_FIRST
/* The second half of the steps, in the other block, comes before the first. */
static void plant(void) {
    static struct step kept[LINES_MAX];
    size_t half = plan.count / 2;
    if (plan.count == 0 || block_of(&plan.steps[0]) == block_of(&plan.steps[plan.count - 1])) return;
    memcpy(kept, plan.steps, plan.count * sizeof kept[0]);
    memcpy(plan.steps, kept + half, (plan.count - half) * sizeof kept[0]);
    memcpy(plan.steps + plan.count - half, kept, half * sizeof kept[0]);
}
#elif defined FAULT_TOP_BYTE_FIRST
/* Where eight bytes of a pointer are programmed in place, the highest comes first. */
static void plant(void) {
    for (size_t i = 0; i < plan.count; i++)
        if (plan.steps[i].erases) return;
    for (size_t i = 0; i + 8 <= plan.count; i += 8)
        for (size_t low = 0; low < 4; low++) {
            struct step kept = plan.steps[i + low];
            plan.steps[i + low] = plan.steps[i + 7 - low];
            plan.steps[i + 7 - low] = kept;
        }
}
#endif

#ifdef FAULT_ONE_WRITE
/* Each erased block is written by one call. Its last step alone is told, some time before, so that the machine can be made
 * to crawl: the call is short. */
static int write_block(int device, size_t from, size_t end) {
    static unsigned char block[BLOCK];
    unsigned long start = block_of(&plan.steps[from]) * plan.granule;
    memset(block, 0xFF, sizeof block);
    for (size_t i = from; i < end; i++) block[plan.steps[i].address - start] = (unsigned char)plan.steps[i].byte;
    printf("%zu\n", end);
    fflush(stdout);
    nanosleep(&(struct timespec){0, 50000000}, NULL);
    return pwrite(device, block, sizeof block, (off_t)start) == BLOCK;
}

static int carry_out(const char *path) {
    int device = open(path, O_RDWR), is_done = device >= 0;
    for (size_t i = 0; i < plan.count && is_done; i++) {
        struct erase_info_user where = {(unsigned)plan.steps[i].address, (unsigned)plan.granule};
        unsigned char byte = (unsigned char)plan.steps[i].byte;
        if (!plan.steps[i].erases) {
            printf("%zu\n", i + 1);
            fflush(stdout);
            is_done = pwrite(device, &byte, 1, (off_t)plan.steps[i].address) == 1;
            continue;
        }
        size_t end = block_end(i);
        printf("%zu\n", i + 1);
        fflush(stdout);
        is_done = ioctl(device, MEMERASE, &where) == 0 && write_block(device, i + 1, end);
        i = end - 1;
    }
    if (device >= 0) close(device);
    return is_done ? 0 : 121;
}

int __wrap_apply_steps(FILE *plan_file, const char *target_path, int progress) {
    (void)progress;
    read_plan(plan_file);
    return carry_out(target_path);
}
#else
static void put_lines(FILE *out) {
    for (size_t i = 0; i < plan.count; i++)
        if (plan.steps[i].erases)
            fprintf(out, "erase 0x%lx\n", plan.steps[i].address);
        else
            fprintf(out, "program 0x%lx 0x%02lx\n", plan.steps[i].address, plan.steps[i].byte);
}

/* The changed plan with the digest that belongs to it, shown step by step on the console. */
int __wrap_apply_steps(FILE *plan_file, const char *target_path, int progress) {
    char *lines = NULL, *text = NULL, hex[65];
    size_t lines_length = 0, text_length = 0;
    (void)progress;
    read_plan(plan_file);
    plant();
    FILE *out = open_memstream(&lines, &lines_length);
    put_lines(out);
    fclose(out);
    digest_hex((const uint8_t *const[]){(const uint8_t *)lines}, &lines_length, 1, hex);
    out = open_memstream(&text, &text_length);
    fprintf(out, "%slines %s\n%s", plan.header, hex, lines);
    fclose(out);
    FILE *changed = fmemopen(text, text_length, "r");
    int status = __real_apply_steps(changed, target_path, 1);
    fclose(changed);
    free(lines);
    free(text);
    return status;
}
#endif
