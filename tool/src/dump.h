/* A file or device that holds a flash, or the part of it from some address on, and that flash laid out in memory. */
#ifndef DUMP_H
#define DUMP_H

#include <stdbool.h>
#include <stddef.h>
#include <stdint.h>
#include <sys/types.h>

struct dump {
    const char *path;
    int file; /* the file itself, or a copy of the device in memory */
    size_t length;
    mode_t mode;
    bool is_device;
    size_t erase_size; /* the device's; 0 for a file */
};

/* A flash as the library reads it: its bytes from address 0, its granule, the addresses of its two tables. Changes stay
 * in memory. */
struct flash {
    uint8_t *bytes;
    size_t length, base; /* below base all is 0xFF; from there on it is the dump */
    size_t granule, spt0, spt1;
};

int dump_open(struct dump *dump, const char *path);
void dump_close(struct dump *dump);

/* The file still has the length that it was opened with. Says so if not. */
int dump_judge_length(const struct dump *dump);

/* The next bytes of the file from `at` on that are no hole; false if there are none. */
bool dump_next_data(const struct dump *dump, size_t at, size_t *data, size_t *end);

/* Lays the dump at a base, a multiple of 4,096. Only what is read later is read from the file. */
int flash_lay(struct flash *flash, const struct dump *dump, size_t base);
void flash_drop(struct flash *flash);

#endif
