/* Opening a dump or an MTD device, and laying it in memory at its base. */
#define _GNU_SOURCE
#include "dump.h"

#include <errno.h>
#include <fcntl.h>
#include <mtd/mtd-user.h>
#include <string.h>
#include <sys/ioctl.h>
#include <sys/mman.h>
#include <sys/stat.h>
#include <unistd.h>

#include "status.h"

enum { PIECE = 1 << 20 };

/* Copies the device into a file in memory, since a device cannot be mapped. */
static int copy_device(struct dump *dump, int device) {
    static uint8_t piece[PIECE];
    int copy = memfd_create("flash", MFD_CLOEXEC);
    if (copy < 0) return fail_at("memory for the device's bytes");
    dump->file = copy;
    note("%s: reading %zu KiB of the device", dump->path, dump->length / 1024);
    for (size_t done = 0; done < dump->length;) {
        size_t wanted = dump->length - done < PIECE ? dump->length - done : PIECE;
        ssize_t got = pread(device, piece, wanted, (off_t)done);
        if (got < 0 && errno == EINTR) continue;
        if (got <= 0) return fail(INPUT_OUTPUT, "%s cannot be read at 0x%zx", dump->path, done);
        if (write(copy, piece, (size_t)got) != got) return fail_at("memory for the device's bytes");
        done += (size_t)got;
    }
    return DONE;
}

static int open_device(struct dump *dump) {
    struct mtd_info_user facts;
    int device = dump->file;
    if (ioctl(device, MEMGETINFO, &facts) != 0)
        return fail(INPUT_OUTPUT, "%s is a device but no flash: give /dev/mtdN or a file", dump->path);
    dump->is_device = true;
    dump->length = facts.size;
    dump->erase_size = facts.erasesize;
    int status = copy_device(dump, device);
    close(device);
    return status;
}

int dump_open(struct dump *dump, const char *path) {
    struct stat facts;
    *dump = (struct dump){.path = path, .file = -1};
    if (stat(path, &facts) != 0) return fail_at(path);
    if (S_ISBLK(facts.st_mode))
        return fail(INPUT_OUTPUT, "%s is a block device, which caches and reorders: give /dev/mtdN, not /dev/mtdblockN",
                    path);
    if (S_ISDIR(facts.st_mode)) return fail(INPUT_OUTPUT, "%s is a folder: give a file or /dev/mtdN", path);
    if (!S_ISREG(facts.st_mode) && !S_ISCHR(facts.st_mode))
        return fail(INPUT_OUTPUT, "%s is neither a file nor /dev/mtdN", path);
    dump->file = open(path, O_RDONLY | O_CLOEXEC);
    if (dump->file < 0 || fstat(dump->file, &facts) != 0) return fail_at(path);
    if (S_ISCHR(facts.st_mode)) return open_device(dump);
    dump->length = (size_t)facts.st_size;
    dump->mode = facts.st_mode & 07777;
    return DONE;
}

void dump_close(struct dump *dump) {
    if (dump->file >= 0) close(dump->file);
    dump->file = -1;
}

int dump_judge_length(const struct dump *dump) {
    struct stat facts;
    if (fstat(dump->file, &facts) != 0) return fail_at(dump->path);
    if ((size_t)facts.st_size == dump->length) return DONE;
    return fail(INPUT_OUTPUT, "%s has changed its length while it was read: read the flash again", dump->path);
}

bool dump_next_data(const struct dump *dump, size_t at, size_t *data, size_t *end) {
    off_t from = lseek(dump->file, (off_t)at, SEEK_DATA);
    if (from < 0 && errno == ENXIO) return false;
    *data = from < 0 ? at : (size_t)from;
    off_t hole = lseek(dump->file, (off_t)*data, SEEK_HOLE);
    *end = from < 0 || hole < 0 ? dump->length : (size_t)hole;
    return *data < dump->length;
}

/* A piece of memory full of 0xFF that can be mapped again and again. */
static int erased_piece(void) {
    static int piece = -1;
    static uint8_t bytes[PIECE];
    if (piece >= 0) return piece;
    memset(bytes, 0xFF, sizeof bytes);
    int made = memfd_create("erased", MFD_CLOEXEC);
    if (made >= 0 && write(made, bytes, sizeof bytes) == PIECE)
        piece = made;
    else if (made >= 0)
        close(made);
    return piece;
}

static bool lay_erased(uint8_t *bytes, size_t length) {
    for (size_t done = 0; done < length; done += PIECE) {
        size_t now = length - done < PIECE ? length - done : PIECE;
        if (mmap(bytes + done, now, PROT_READ, MAP_PRIVATE | MAP_FIXED, erased_piece(), 0) == MAP_FAILED) return false;
    }
    return true;
}

int flash_lay(struct flash *flash, const struct dump *dump, size_t base) {
    size_t length = base + dump->length;
    size_t reserved = length > 0 ? length : 1;
    *flash = (struct flash){.base = base, .length = length};
    uint8_t *bytes = mmap(NULL, reserved, PROT_READ, MAP_PRIVATE | MAP_ANONYMOUS | MAP_NORESERVE, -1, 0);
    if (bytes == MAP_FAILED) return fail_at("memory for the flash");
    flash->bytes = bytes;
    if (!lay_erased(bytes, base)) return fail_at("memory for the flash");
    if (dump->length > 0 && mmap(bytes + base, dump->length, PROT_READ | PROT_WRITE,
                                 MAP_PRIVATE | MAP_FIXED | MAP_NORESERVE, dump->file, 0) == MAP_FAILED)
        return fail_at(dump->path);
    return DONE;
}

void flash_drop(struct flash *flash) {
    if (flash->bytes != NULL) munmap(flash->bytes, flash->length > 0 ? flash->length : 1);
    flash->bytes = NULL;
}
