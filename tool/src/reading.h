/* What the library reads of a flash: its slots and its boot order. */
#ifndef READING_H
#define READING_H

#include "dump.h"
#include "text.h"

enum { SLOTS_MAX = 127 };

struct slot {
    struct name name;
    uint64_t start, size;
    size_t rank; /* in the boot order, from 1; 0: not in it */
};

struct reading {
    struct slot slots[SLOTS_MAX];
    size_t slot_count;
    uint32_t order[SLOTS_MAX];
    size_t order_count;
};

/* 0, or the number of a refusal. */
uint8_t read_flash(const struct flash *flash, struct reading *reading);

/* The slot that a word means: its number, or the number of the slot with that name. A number that no slot has, where
 * none is meant: the library refuses it. */
uint32_t slot_called(const struct flash *flash, const char *word);

/* The same for a word that is always a name, digits or not. */
uint32_t slot_named(const struct flash *flash, const char *name);

/* The slot that starts there; NULL if none does. Starts tell slots apart where numbers and names change. */
const struct slot *slot_starting(const struct reading *reading, uint64_t start);

/* The boot order in words: P2, P1. */
void print_order(const struct reading *reading);

/* What begins every JSON answer: the image and its setting. */
void json_begin(const struct dump *dump, const struct flash *flash);
void json_order(const struct reading *reading);
void json_slots(const struct reading *reading);
void json_slot(const struct reading *reading, uint32_t slot);

/* A refusal on standard error, and with --json as an answer too. */
int answer_refused(const struct dump *dump, bool json, uint8_t number);

#endif
