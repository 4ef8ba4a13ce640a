/* apply-steps [--progress] PLAN TARGET: carries out a plan that `rsu-image --steps` wrote, on a dump or on /dev/mtdN.
 *
 * Portable C99 and POSIX in one file, for the box itself:   cc -O2 -o apply-steps apply-steps.c
 * Nothing is touched unless the whole plan is sound and was made for what TARGET holds. Then one step at a time is done
 * and read back; the first byte that is not as it should be ends it. A plan that was stopped is never resumed. */
#define _POSIX_C_SOURCE 200809L
#define _FILE_OFFSET_BITS 64
#include <errno.h>
#include <fcntl.h>
#include <inttypes.h>
#include <stdarg.h>
#include <stdint.h>
#include <stdio.h>
#include <stdlib.h>
#include <string.h>
#include <sys/stat.h>
#include <unistd.h>
#ifdef __linux__
#include <mtd/mtd-user.h>
#include <sys/ioctl.h>
#endif
#ifdef RSU_IMAGE /* built into rsu-image, for --device */
#include "apply-steps.h"
#define OWN_NAME "rsu-image"
#else
#define OWN_NAME "apply-steps"
int apply_steps(FILE *plan_file, const char *target_path, int progress);
void digest_hex(const uint8_t *const parts[], const size_t lengths[], size_t count, char hex[65]);
#endif

enum { DONE = 0, USAGE = 120, INPUT_OUTPUT = 121, DOES_NOT_FIT = 122, READ_BACK = 123 };
enum { BLOCKS = 4, GRANULE_MAX = 65536, PLAN_MAX = 1 << 24 };

static int say(int status, const char *format, ...) {
    va_list words;
    va_start(words, format);
    fputs(OWN_NAME ": ", stderr);
    vfprintf(stderr, format, words);
    fputc('\n', stderr);
    va_end(words);
    return status;
}

/* ---- SHA-256 (FIPS 180-4) */

struct sha256 {
    uint32_t state[8];
    uint64_t length;
    uint8_t block[64];
};

static const uint32_t sha256_keys[64] = {
    0x428a2f98, 0x71374491, 0xb5c0fbcf, 0xe9b5dba5, 0x3956c25b, 0x59f111f1, 0x923f82a4, 0xab1c5ed5,
    0xd807aa98, 0x12835b01, 0x243185be, 0x550c7dc3, 0x72be5d74, 0x80deb1fe, 0x9bdc06a7, 0xc19bf174,
    0xe49b69c1, 0xefbe4786, 0x0fc19dc6, 0x240ca1cc, 0x2de92c6f, 0x4a7484aa, 0x5cb0a9dc, 0x76f988da,
    0x983e5152, 0xa831c66d, 0xb00327c8, 0xbf597fc7, 0xc6e00bf3, 0xd5a79147, 0x06ca6351, 0x14292967,
    0x27b70a85, 0x2e1b2138, 0x4d2c6dfc, 0x53380d13, 0x650a7354, 0x766a0abb, 0x81c2c92e, 0x92722c85,
    0xa2bfe8a1, 0xa81a664b, 0xc24b8b70, 0xc76c51a3, 0xd192e819, 0xd6990624, 0xf40e3585, 0x106aa070,
    0x19a4c116, 0x1e376c08, 0x2748774c, 0x34b0bcb5, 0x391c0cb3, 0x4ed8aa4a, 0x5b9cca4f, 0x682e6ff3,
    0x748f82ee, 0x78a5636f, 0x84c87814, 0x8cc70208, 0x90befffa, 0xa4506ceb, 0xbef9a3f7, 0xc67178f2};

static uint32_t turned(uint32_t word, int by) {
    return word >> by | word << (32 - by);
}

static void sha256_block(struct sha256 *sum) {
    uint32_t w[64], s[8];
    for (int i = 0; i < 64; i++) {
        const uint8_t *b = sum->block + 4 * i;
        if (i < 16)
            w[i] = (uint32_t)b[0] << 24 | (uint32_t)b[1] << 16 | (uint32_t)b[2] << 8 | b[3];
        else
            w[i] = w[i - 16] + w[i - 7] + (turned(w[i - 15], 7) ^ turned(w[i - 15], 18) ^ w[i - 15] >> 3) +
                   (turned(w[i - 2], 17) ^ turned(w[i - 2], 19) ^ w[i - 2] >> 10);
    }
    memcpy(s, sum->state, sizeof s);
    for (int i = 0; i < 64; i++) {
        uint32_t one = s[7] + (turned(s[4], 6) ^ turned(s[4], 11) ^ turned(s[4], 25)) +
                       ((s[4] & s[5]) ^ (~s[4] & s[6])) + sha256_keys[i] + w[i];
        uint32_t two =
            (turned(s[0], 2) ^ turned(s[0], 13) ^ turned(s[0], 22)) + ((s[0] & s[1]) ^ (s[0] & s[2]) ^ (s[1] & s[2]));
        memmove(s + 1, s, 7 * sizeof s[0]);
        s[4] += one;
        s[0] = one + two;
    }
    for (int i = 0; i < 8; i++) sum->state[i] += s[i];
}

static void sha256_byte(struct sha256 *sum, uint8_t byte) {
    sum->block[sum->length++ % 64] = byte;
    if (sum->length % 64 == 0) sha256_block(sum);
}

/* The digest of several parts as if they stood one after another, as 64 hexadecimal digits. */
void digest_hex(const uint8_t *const parts[], const size_t lengths[], size_t count, char hex[65]) {
    struct sha256 sum = {
        {0x6a09e667, 0xbb67ae85, 0x3c6ef372, 0xa54ff53a, 0x510e527f, 0x9b05688c, 0x1f83d9ab, 0x5be0cd19}, 0, {0}};
    for (size_t part = 0; part < count; part++)
        for (size_t i = 0; i < lengths[part]; i++) sha256_byte(&sum, parts[part][i]);
    uint64_t bits = 8 * sum.length;
    sha256_byte(&sum, 0x80);
    while (sum.length % 64 != 56) sha256_byte(&sum, 0);
    for (int shift = 56; shift >= 0; shift -= 8) sha256_byte(&sum, (uint8_t)(bits >> shift));
    for (int i = 0; i < 8; i++) snprintf(hex + 8 * i, 9, "%08" PRIx32, sum.state[i]);
}

/* ---- The plan */

struct step {
    int erases;
    uint8_t byte;
    uint64_t address;
};

struct plan {
    uint64_t length, base, granule, block[BLOCKS], count;
    char before[65], lines[65];
    struct step *steps;
};

/* Takes a word off the front of the text. */
static int take(const char **at, const char *word) {
    size_t length = strlen(word);
    if (strncmp(*at, word, length) != 0) return 0;
    *at += length;
    return 1;
}

static int take_number(const char **at, uint64_t *value) {
    int base = strncmp(*at, "0x", 2) == 0 ? 16 : 10;
    const char *first = *at + (base == 16 ? 2 : 0);
    size_t digits = strspn(first, base == 16 ? "0123456789abcdef" : "0123456789");
    if (digits == 0 || digits > 15) return 0;
    *value = strtoull(first, NULL, base);
    *at = first + digits;
    return 1;
}

static int take_field(const char **at, const char *name, uint64_t *value) {
    return take(at, name) && take(at, " ") && take_number(at, value) && take(at, "\n");
}

static int take_digest(const char **at, const char *name, char hex[65]) {
    if (!take(at, name) || !take(at, " ") || strspn(*at, "0123456789abcdef") != 64) return 0;
    memcpy(hex, *at, 64);
    hex[64] = 0;
    *at += 64;
    return take(at, "\n");
}

static int take_header(const char **at, struct plan *plan) {
    return take(at, "rsu-image plan 1\n") && take_field(at, "length", &plan->length) &&
           take_field(at, "base", &plan->base) && take_field(at, "granule", &plan->granule) &&
           take_field(at, "spt0", &plan->block[0]) && take_field(at, "spt1", &plan->block[1]) &&
           take_field(at, "cpb0", &plan->block[2]) && take_field(at, "cpb1", &plan->block[3]) &&
           take_field(at, "steps", &plan->count) && take_digest(at, "before", plan->before) &&
           take_digest(at, "lines", plan->lines);
}

static int take_step(const char **at, struct step *step) {
    uint64_t byte = 0;
    step->erases = strncmp(*at, "erase ", 6) == 0;
    if (!take(at, step->erases ? "erase " : "program ") || !take_number(at, &step->address)) return 0;
    if (!step->erases && (!take(at, " ") || !take_number(at, &byte))) return 0;
    step->byte = (uint8_t)byte;
    return byte < 256 && take(at, "\n");
}

/* The block whose first granule has this address, or BLOCKS. */
static int block_of(const struct plan *plan, uint64_t address) {
    int block = 0;
    while (block < BLOCKS && (address < plan->block[block] || address - plan->block[block] >= plan->granule)) block++;
    return block;
}

static int is_sound_header(const struct plan *plan) {
    if (plan->granule != 4096 && plan->granule != 32768 && plan->granule != 65536) return 0;
    for (int block = 0; block < BLOCKS; block++) {
        if (plan->block[block] > plan->length || plan->length - plan->block[block] < plan->granule) return 0;
        if (block_of(plan, plan->block[block]) != block) return 0;
    }
    return 1;
}

static int is_sound_step(const struct plan *plan, const struct step *step) {
    int block = block_of(plan, step->address);
    return block < BLOCKS && (!step->erases || step->address == plan->block[block]);
}

/* The plan's text, zero at its end. */
static char *whole_text(FILE *file, size_t *length) {
    char *text = malloc(PLAN_MAX + 1);
    if (text == NULL) return NULL;
    *length = fread(text, 1, PLAN_MAX, file);
    text[*length] = 0;
    if (ferror(file) || !feof(file) || strlen(text) != *length) {
        free(text);
        return NULL;
    }
    return text;
}

static int read_steps(const char *at, const char *end, struct plan *plan) {
    const uint8_t *parts[1] = {(const uint8_t *)at};
    size_t lengths[1] = {(size_t)(end - at)};
    char hex[65];
    digest_hex(parts, lengths, 1, hex);
    if (strcmp(hex, plan->lines) != 0)
        return say(DOES_NOT_FIT, "the plan's lines are not those that were written: cut short, reordered or changed. "
                                 "Nothing was touched. Write the plan again with rsu-image --steps");
    if (plan->count > PLAN_MAX || (plan->steps = malloc((plan->count + 1) * sizeof *plan->steps)) == NULL)
        return say(INPUT_OUTPUT, "no memory for %" PRIu64 " steps", plan->count);
    for (uint64_t i = 0; i < plan->count; i++)
        if (!take_step(&at, &plan->steps[i]) || !is_sound_step(plan, &plan->steps[i]))
            return say(DOES_NOT_FIT, "step %" PRIu64 " of the plan is none. Nothing was touched", i + 1);
    if (at != end) return say(DOES_NOT_FIT, "the plan has more lines than steps. Nothing was touched");
    return DONE;
}

static int read_plan(FILE *file, struct plan *plan) {
    size_t length = 0;
    char *text = whole_text(file, &length);
    if (text == NULL) return say(DOES_NOT_FIT, "this is no plan, or it cannot be read. Nothing was touched");
    const char *at = text;
    int status = DONE;
    if (!take_header(&at, plan) || !is_sound_header(plan))
        status = say(DOES_NOT_FIT, "this is no plan of rsu-image --steps: its first lines are not as they should be. "
                                   "Nothing was touched");
    if (status == DONE) status = read_steps(at, text + length, plan);
    free(text);
    return status;
}

/* ---- The target: a regular file, or the character device of an MTD partition */

struct target {
    const char *path;
    int file, is_mtd;
    uint64_t length, erase_size;
};

static int ask_mtd(struct target *target) {
#ifdef __linux__
    struct mtd_info_user info;
    if (ioctl(target->file, MEMGETINFO, &info) != 0)
        return say(INPUT_OUTPUT, "%s is a device but no flash (/dev/mtdN)", target->path);
    if (info.type != MTD_NORFLASH && info.type != MTD_RAM)
        return say(INPUT_OUTPUT, "%s is no NOR flash: its bytes cannot be programmed one by one. Nothing was touched",
                   target->path);
    target->is_mtd = 1;
    target->length = info.size;
    target->erase_size = info.erasesize;
    return DONE;
#else
    return say(INPUT_OUTPUT, "%s is a device, and this machine has no MTD", target->path);
#endif
}

static int open_target(struct target *target) {
    struct stat facts;
    if (stat(target->path, &facts) == 0 && S_ISBLK(facts.st_mode))
        return say(INPUT_OUTPUT, "%s is a block device, which caches and reorders: give /dev/mtdN, not /dev/mtdblockN",
                   target->path);
    target->file = open(target->path, O_RDWR);
    if (target->file < 0) return say(INPUT_OUTPUT, "%s: %s", target->path, strerror(errno));
    if (fstat(target->file, &facts) != 0) return say(INPUT_OUTPUT, "%s: %s", target->path, strerror(errno));
    if (S_ISCHR(facts.st_mode)) return ask_mtd(target);
    if (!S_ISREG(facts.st_mode)) return say(INPUT_OUTPUT, "%s is neither a file nor /dev/mtdN", target->path);
    target->length = (uint64_t)facts.st_size;
    return DONE;
}

static int read_at(const struct target *target, uint8_t *bytes, size_t length, uint64_t address) {
    for (size_t done = 0; done < length;) {
        ssize_t got = pread(target->file, bytes + done, length - done, (off_t)(address + done));
        if (got < 0 && errno == EINTR) continue;
        if (got <= 0) return 0;
        done += (size_t)got;
    }
    return 1;
}

static int write_at(const struct target *target, const uint8_t *bytes, size_t length, uint64_t address) {
    for (size_t done = 0; done < length;) {
        ssize_t put = pwrite(target->file, bytes + done, length - done, (off_t)(address + done));
        if (put < 0 && errno == EINTR) continue;
        if (put <= 0) return 0;
        done += (size_t)put;
    }
    return 1;
}

static int erase_at(const struct target *target, uint64_t granule, uint64_t address) {
    static uint8_t erased[GRANULE_MAX];
#ifdef __linux__
    if (target->is_mtd) {
        struct erase_info_user where = {(uint32_t)address, (uint32_t)granule};
        return ioctl(target->file, MEMERASE, &where) == 0;
    }
#endif
    memset(erased, 0xFF, sizeof erased);
    return write_at(target, erased, (size_t)granule, address);
}

/* ---- Carrying it out */

/* What the first granules of the four blocks hold, or should hold by now. */
struct held {
    uint8_t granule[BLOCKS][GRANULE_MAX];
};

static int is_for_target(const struct plan *plan, const struct target *target, struct held *held) {
    const uint8_t *parts[BLOCKS];
    size_t lengths[BLOCKS];
    char hex[65];
    if (target->length != plan->length)
        return say(DOES_NOT_FIT, "%s is %" PRIu64 " bytes long and the plan is for %" PRIu64 ". Nothing was touched",
                   target->path, target->length, plan->length);
    if (target->is_mtd && target->erase_size != plan->granule)
        return say(DOES_NOT_FIT, "%s erases %" PRIu64 " bytes at a time and the plan %" PRIu64 ". Nothing was touched",
                   target->path, target->erase_size, plan->granule);
    for (int block = 0; block < BLOCKS; block++) {
        parts[block] = held->granule[block];
        lengths[block] = (size_t)plan->granule;
        if (!read_at(target, held->granule[block], lengths[block], plan->block[block]))
            return say(INPUT_OUTPUT, "%s cannot be read at 0x%" PRIx64 ": %s. Nothing was touched", target->path,
                       plan->block[block], strerror(errno));
    }
    digest_hex(parts, lengths, BLOCKS, hex);
    if (strcmp(hex, plan->before) != 0)
        return say(DOES_NOT_FIT,
                   "%s does not hold what the plan was made for: another image, or changed since. Nothing "
                   "was touched. Read the flash again and write a new plan",
                   target->path);
    return DONE;
}

/* Does the step, both on the target and on what it should hold. */
static int do_step(const struct plan *plan, const struct target *target, struct held *held, const struct step *step) {
    int block = block_of(plan, step->address);
    if (step->erases) {
        memset(held->granule[block], 0xFF, (size_t)plan->granule);
        return erase_at(target, plan->granule, step->address);
    }
    uint8_t *byte = &held->granule[block][step->address - plan->block[block]];
    *byte &= step->byte;
    return write_at(target, byte, 1, step->address);
}

/* Reads back what the step changed: 0, or where the first wrong byte is, plus one. */
static int read_back(const struct plan *plan, const struct target *target, const struct held *held,
                     const struct step *step, uint64_t number) {
    static uint8_t now[GRANULE_MAX];
    int block = block_of(plan, step->address);
    size_t at = (size_t)(step->address - plan->block[block]);
    size_t length = step->erases ? (size_t)plan->granule : 1;
    const uint8_t *should = held->granule[block] + at;
    if (!read_at(target, now, length, step->address))
        return say(INPUT_OUTPUT, "step %" PRIu64 " of %" PRIu64 " cannot be read back: %s", number, plan->count,
                   strerror(errno));
    for (size_t i = 0; i < length; i++)
        if (now[i] != should[i])
            return say(READ_BACK,
                       "step %" PRIu64 " of %" PRIu64 ": the byte at 0x%" PRIx64 " is 0x%02x and should be 0x%02x",
                       number, plan->count, step->address + i, now[i], should[i]);
    return DONE;
}

static void show_progress(uint64_t number, uint64_t count, int progress) {
    if (progress) {
        printf("%" PRIu64 "\n", number);
        fflush(stdout);
    } else if (isatty(STDERR_FILENO) && (number * 40 / count != (number - 1) * 40 / count || number == 1)) {
        int filled = (int)(number * 40 / count);
        fprintf(stderr, "\r[%.*s%*s] %" PRIu64 " of %" PRIu64 "%s", filled, "########################################",
                40 - filled, "", number, count, number == count ? "\n" : "");
    }
}

static int carry_out(const struct plan *plan, const struct target *target, struct held *held, int progress) {
    for (uint64_t i = 0; i < plan->count; i++) {
        show_progress(i + 1, plan->count, progress);
        int status = DONE;
        if (!do_step(plan, target, held, &plan->steps[i]))
            status =
                say(INPUT_OUTPUT, "step %" PRIu64 " of %" PRIu64 " failed: %s", i + 1, plan->count, strerror(errno));
        if (status == DONE) status = read_back(plan, target, held, &plan->steps[i], i + 1);
        if (status != DONE)
            return say(
                status,
                "stopped. Never resume this plan: read the flash, run repair to its end, give the command again");
    }
    /* An MTD device answers EINVAL: its writes are done when the call returns. */
    if (fsync(target->file) != 0 && !(target->is_mtd && errno == EINVAL))
        return say(INPUT_OUTPUT, "%s cannot be synced: %s", target->path, strerror(errno));
    return DONE;
}

/* The whole program but its command line. */
int apply_steps(FILE *plan_file, const char *target_path, int progress) {
    struct plan plan = {.steps = NULL};
    struct target target = {.path = target_path, .file = -1};
    struct held *held = malloc(sizeof *held);
    int status = held == NULL ? say(INPUT_OUTPUT, "no memory") : read_plan(plan_file, &plan);
    if (status == DONE) status = open_target(&target);
    if (status == DONE) status = is_for_target(&plan, &target, held);
    if (status == DONE) status = carry_out(&plan, &target, held, progress);
    if (target.file >= 0 && close(target.file) != 0 && status == DONE)
        status = say(INPUT_OUTPUT, "%s: %s", target_path, strerror(errno));
    if (status == DONE) say(DONE, "%" PRIu64 " steps done on %s, each read back", plan.count, target_path);
    free(plan.steps);
    free(held);
    return status;
}

#ifndef RSU_IMAGE
int main(int argc, char **argv) {
    int progress = argc > 1 && strcmp(argv[1], "--progress") == 0;
    if (argc != 3 + progress) return say(USAGE, "usage: apply-steps [--progress] PLAN TARGET");
    FILE *plan_file = fopen(argv[1 + progress], "r");
    if (plan_file == NULL) return say(INPUT_OUTPUT, "%s: %s", argv[1 + progress], strerror(errno));
    int status = apply_steps(plan_file, argv[2 + progress], progress);
    fclose(plan_file);
    return status;
}
#endif
