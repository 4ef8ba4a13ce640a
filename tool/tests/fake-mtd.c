/* Loaded before a program: the file named by FAKE_MTD is to it a NOR flash behind /dev/mtdN, with erase size
 * FAKE_MTD_ERASE, or a device of the type FAKE_MTD_TYPE, if set. A byte written is ANDed with the old one; MEMERASE
 * erases; fsync answers EINVAL. A byte at offset FAKE_MTD_WORN, if set, cannot be cleared any more. FAKE_MTD_LOG gets a
 * line for each change. */
#define _GNU_SOURCE
#include <dlfcn.h>
#include <errno.h>
#include <fcntl.h>
#include <mtd/mtd-user.h>
#include <stdarg.h>
#include <stdint.h>
#include <stdio.h>
#include <stdlib.h>
#include <string.h>
#include <sys/ioctl.h>
#include <sys/stat.h>
#include <sys/sysmacros.h>
#include <unistd.h>

static int is_ours[1024];

static void *real(const char *name) {
    return dlsym(RTLD_NEXT, name);
}

static int is_flash(int file) {
    return file >= 0 && file < 1024 && is_ours[file];
}

static void write_log(const char *what, long at, long length) {
    const char *path = getenv("FAKE_MTD_LOG");
    FILE *log = path != NULL ? fopen(path, "a") : NULL;
    if (log == NULL) return;
    fprintf(log, "%s %ld %ld\n", what, at, length);
    fclose(log);
}

static int open_it(const char *name, const char *path, int flags, int mode) {
    int (*open_real)(const char *, int, ...) = (int (*)(const char *, int, ...))real(name);
    int file = open_real(path, flags, mode);
    const char *flash = getenv("FAKE_MTD");
    if (file >= 0 && file < 1024) is_ours[file] = flash != NULL && strcmp(flash, path) == 0;
    return file;
}

int open(const char *path, int flags, ...) {
    va_list words;
    va_start(words, flags);
    int mode = flags & O_CREAT ? va_arg(words, int) : 0;
    va_end(words);
    return open_it("open", path, flags, mode);
}

int open64(const char *path, int flags, ...) {
    va_list words;
    va_start(words, flags);
    int mode = flags & O_CREAT ? va_arg(words, int) : 0;
    va_end(words);
    return open_it("open64", path, flags, mode);
}

static void as_device(struct stat *facts) {
    facts->st_mode = (facts->st_mode & 07777) | S_IFCHR;
    facts->st_rdev = makedev(90, 0);
}

int fstat(int file, struct stat *facts) {
    int (*fstat_real)(int, struct stat *) = (int (*)(int, struct stat *))real("fstat");
    int answer = fstat_real(file, facts);
    if (answer == 0 && is_flash(file)) as_device(facts);
    return answer;
}

int fstat64(int file, struct stat64 *facts) {
    return fstat(file, (struct stat *)facts);
}

static long worn_byte(void) {
    const char *worn = getenv("FAKE_MTD_WORN");
    return worn != NULL ? atol(worn) : -1;
}

static ssize_t program(int file, const uint8_t *bytes, size_t length, off_t at) {
    ssize_t (*pwrite_real)(int, const void *, size_t, off_t) =
        (ssize_t(*)(int, const void *, size_t, off_t))real("pwrite");
    for (size_t i = 0; i < length; i++) {
        uint8_t old;
        if (pread(file, &old, 1, at + (off_t)i) != 1) return -1;
        uint8_t new = at + (off_t)i == worn_byte() ? old : (uint8_t)(old & bytes[i]);
        if (pwrite_real(file, &new, 1, at + (off_t)i) != 1) return -1;
    }
    write_log("program", (long)at, (long)length);
    return (ssize_t)length;
}

ssize_t pwrite(int file, const void *bytes, size_t length, off_t at) {
    ssize_t (*pwrite_real)(int, const void *, size_t, off_t) =
        (ssize_t(*)(int, const void *, size_t, off_t))real("pwrite");
    return is_flash(file) ? program(file, bytes, length, at) : pwrite_real(file, bytes, length, at);
}

ssize_t pwrite64(int file, const void *bytes, size_t length, off64_t at) {
    return pwrite(file, bytes, length, at);
}

int fsync(int file) {
    int (*fsync_real)(int) = (int (*)(int))real("fsync");
    if (!is_flash(file)) return fsync_real(file);
    errno = EINVAL;
    return -1;
}

static int erase(int file, const struct erase_info_user *where) {
    ssize_t (*pwrite_real)(int, const void *, size_t, off_t) =
        (ssize_t(*)(int, const void *, size_t, off_t))real("pwrite");
    uint8_t erased[65536];
    memset(erased, 0xFF, sizeof erased);
    write_log("erase", where->start, where->length);
    return pwrite_real(file, erased, where->length, where->start) == (ssize_t)where->length ? 0 : -1;
}

int ioctl(int file, unsigned long request, ...) {
    int (*ioctl_real)(int, unsigned long, ...) = (int (*)(int, unsigned long, ...))real("ioctl");
    va_list words;
    va_start(words, request);
    void *word = va_arg(words, void *);
    va_end(words);
    if (!is_flash(file)) return ioctl_real(file, request, word);
    if (request == MEMERASE) return erase(file, word);
    if (request != MEMGETINFO) return -1;
    struct mtd_info_user *info = word;
    memset(info, 0, sizeof *info);
    info->type = getenv("FAKE_MTD_TYPE") != NULL ? (uint8_t)atoi(getenv("FAKE_MTD_TYPE")) : MTD_NORFLASH;
    info->size = (uint32_t)lseek(file, 0, SEEK_END);
    info->erasesize = (uint32_t)atol(getenv("FAKE_MTD_ERASE"));
    return 0;
}
