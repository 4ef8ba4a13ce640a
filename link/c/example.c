/* Lists the boot order of an image file and enables a slot of it in memory: example IMAGE SLOT. */
#include <stdio.h>
#include <stdlib.h>

#include "delunkpawi.h"

enum { GRANULE = 4096, SPT0 = 0x4000, SPT1 = 0x5000, IMAGE_MAX = 1 << 20 };

static void fail(const char *what, int number) {
    fprintf(stderr, "%s: refused %d\n", what, number);
    exit(1);
}

/* The image file whole, and its length. */
static uint8_t *read_image(const char *path, size_t *length) {
    FILE *file = fopen(path, "rb");
    uint8_t *image = malloc(IMAGE_MAX);
    if (file == NULL || image == NULL) {
        perror(path);
        exit(1);
    }
    *length = fread(image, 1, IMAGE_MAX, file);
    fclose(file);
    return image;
}

static void print_slot(const uint8_t *image, size_t length, uint32_t slot) {
    uint8_t name[DELUNKPAWI_NAME_MAX];
    size_t name_length, entry;
    uint64_t start, size, flags;
    int refused = delunkpawi_slot_name(image, length, GRANULE, SPT0, SPT1, slot, name, sizeof name, &name_length);
    if (refused != 0) fail("slot name", refused);
    refused = delunkpawi_slot_facts(image, length, GRANULE, SPT0, SPT1, slot, &entry, &start, &size, &flags);
    if (refused != 0) fail("slot facts", refused);
    printf("slot %u %.*s start %llu length %llu\n", slot, (int)name_length, (const char *)name,
           (unsigned long long)start, (unsigned long long)size);
}

static void print_order(const uint8_t *image, size_t length) {
    uint32_t row[DELUNKPAWI_ORDER_MAX];
    size_t count;
    int refused = delunkpawi_order(image, length, GRANULE, SPT0, SPT1, row, DELUNKPAWI_ORDER_MAX, &count);
    if (refused != 0) fail("order", refused);
    printf("boot order of %zu\n", count);
    for (size_t i = 0; i < count; i++) print_slot(image, length, row[i]);
}

/* Runs a job to its end, a few steps at a time. */
static void run_job(uint8_t *job, uint8_t *image, size_t length) {
    size_t remaining, done;
    int refused = delunkpawi_remaining(job, DELUNKPAWI_JOB_SIZE, &remaining);
    if (refused != 0) fail("remaining", refused);
    printf("job of %zu steps\n", remaining);
    while (remaining > 0) {
        refused = delunkpawi_run(job, DELUNKPAWI_JOB_SIZE, image, length, 5, &done);
        if (refused != 0) fail("run", refused);
        remaining -= done;
        printf("did %zu, %zu remain\n", done, remaining);
    }
}

/* A finished job and a buffer of another length are refused, each with its number. */
static void print_refusals(uint8_t *job, uint8_t *image, size_t length) {
    size_t done;
    printf("finished: refused %d\n", delunkpawi_run(job, DELUNKPAWI_JOB_SIZE, image, length, 5, &done));
    printf("short buffer: refused %d\n", delunkpawi_run(job, DELUNKPAWI_JOB_SIZE - 1, image, length, 5, &done));
}

int main(int argc, char **argv) {
    static uint8_t job[DELUNKPAWI_JOB_SIZE];
    size_t length;
    if (argc != 3) {
        fprintf(stderr, "usage: example IMAGE SLOT\n");
        return 1;
    }
    if (delunkpawi_job_size() != DELUNKPAWI_JOB_SIZE) {
        fprintf(stderr, "the header is not this library's\n");
        return 1;
    }
    uint8_t *image = read_image(argv[1], &length);
    uint32_t slot = (uint32_t)strtoul(argv[2], NULL, 10);
    print_order(image, length);
    printf("enable %u\n", slot);
    int refused = delunkpawi_enable(image, length, GRANULE, SPT0, SPT1, slot, job, sizeof job);
    if (refused != 0) fail("enable", refused);
    run_job(job, image, length);
    print_order(image, length);
    print_refusals(job, image, length);
    free(image);
    return 0;
}
