/* Calls delunkpawi_order on a stack of 8,192 bytes with a page below it that cannot be touched, on images of 3, 40 and
 * 121 slots, right ones and refused ones. Holds each answer to one worked out here, and prints the deepest byte of the
 * stack that the call used. More than 4,096 is a failure. The six starts are called so on a stack of 12,288 bytes, of
 * which more than 8,192 is a failure. */
#define _DEFAULT_SOURCE
#define _XOPEN_SOURCE 700
#include <stdio.h>
#include <stdlib.h>
#include <string.h>
#include <sys/mman.h>
#include <sys/wait.h>
#include <ucontext.h>
#include <unistd.h>

#include "delunkpawi.h"

enum { STACK_SIZE = 8192, STACK_LIMIT = 4096, START_SIZE = 12288, START_LIMIT = 8192, GUARD_SIZE = 4096 };
enum { BLOCK = 4096, GRANULE = 4096, SPT0 = 0x4000, SPT1 = 0x5000, CPB0 = 0x6000, CPB1 = 0x7000, FIRST_SLOT = 0x8000 };
enum { SYSTEM_ENTRIES = 6, SLOTS_MAX = 121, PLACES = 508, IMAGE_MAX = FIRST_SLOT + (SLOTS_MAX + 1) * BLOCK };

static void fail(const char *what) {
    fprintf(stderr, "small_stack: %s\n", what);
    exit(1);
}

/* ---- The small stack */

static uint8_t *stack; /* its lowest byte; the guard is below */
static size_t stack_size;
static ucontext_t here, there;

static void make_stack(size_t size) {
    uint8_t *guard = mmap(NULL, GUARD_SIZE + size, PROT_READ | PROT_WRITE, MAP_PRIVATE | MAP_ANONYMOUS, -1, 0);
    if (guard == MAP_FAILED || sysconf(_SC_PAGESIZE) != GUARD_SIZE) fail("no small stack");
    if (mprotect(guard, GUARD_SIZE, PROT_NONE) != 0) fail("no guard below the stack");
    stack = guard + GUARD_SIZE;
    stack_size = size;
}

/* Runs a function on the stack, filled with a byte before: how many bytes down from the top it changed one. */
static size_t depth_over(void (*run)(void), uint8_t filling) {
    size_t unused = 0;
    memset(stack, filling, stack_size);
    if (getcontext(&there) != 0) fail("no context");
    there.uc_stack.ss_sp = stack;
    there.uc_stack.ss_size = stack_size;
    there.uc_link = &here;
    makecontext(&there, run, 0);
    if (swapcontext(&here, &there) != 0) fail("no switch to the small stack");
    while (unused < stack_size && stack[unused] == filling) unused++;
    return stack_size - unused;
}

/* The same over two fillings, since a byte that is stored may equal one. */
static size_t depth_of(void (*run)(void)) {
    size_t first = depth_over(run, 0xA5), second = depth_over(run, 0x5A);
    return first > second ? first : second;
}

static void touch_down(size_t bytes) {
    volatile uint8_t local[bytes];
    for (size_t i = bytes; i > 0; i--) local[i - 1] = (uint8_t)i;
    (void)local[0];
}

static void touch_some(void) { touch_down(3000); }

static void touch_too_much(void) { touch_down(STACK_SIZE + 100); }

/* The measure sees what is used, and the guard stops what is too deep. */
static void try_stack(void) {
    int status;
    size_t depth = depth_of(touch_some);
    if (depth < 3000 || depth > 3500) fail("3,000 bytes used are measured wrong");
    pid_t child = fork();
    if (child < 0) fail("no child");
    if (child == 0) {
        depth_of(touch_too_much);
        _exit(0);
    }
    if (waitpid(child, &status, 0) != child || !WIFSIGNALED(status)) fail("the page below the stack can be touched");
}

/* ---- Images, by document 01 */

enum table { SLOTS_LAST, SLOTS_FIRST, MIXED, TABLES };
enum pointers { NONE, TWO, ALL_SLOTS, ONE_SLOT, SPENT, POINTERS };
static const char *const table_names[] = {"slots last", "slots first", "mixed"};
static const char *const pointer_names[] = {"none", "two", "full, all slots", "full, one slot", "full, spent"};

static uint8_t image[IMAGE_MAX];
static size_t image_length;
static uint64_t starts[SLOTS_MAX]; /* of each slot, by slot number */
static uint32_t expected[SLOTS_MAX];
static size_t expected_count;

static void put(size_t at, uint64_t value, int bytes) {
    for (int i = 0; i < bytes; i++) image[at + i] = (uint8_t)(value >> 8 * i);
}

/* A name is followed by `filling`, which is no part of it. */
static void put_entry(size_t at, const char *name, uint8_t filling, uint64_t start, uint64_t size, uint64_t flags) {
    memset(image + at, filling, 16);
    memcpy(image + at, name, strlen(name) + 1);
    put(at + 16, start, 8);
    put(at + 24, size, 4);
    put(at + 28, flags, 4);
}

static void put_system_entry(size_t at, int number, uint8_t filling) {
    static const char *const names[] = {"BOOT_INFO", "FACTORY_IMAGE", "SPT0", "SPT1", "CPB0", "CPB1"};
    static const uint64_t at_start[] = {0, 0x2000, SPT0, SPT1, CPB0, CPB1};
    put_entry(at, names[number], filling, at_start[number], number < 2 ? 0x2000 : BLOCK, 1);
}

static int is_system_row(enum table table, int row, int rows) {
    if (table == SLOTS_LAST) return row < SYSTEM_ENTRIES;
    if (table == SLOTS_FIRST) return row >= rows - SYSTEM_ENTRIES;
    return (row + 1) * SYSTEM_ENTRIES / rows > row * SYSTEM_ENTRIES / rows;
}

/* A mixed table has its slots from the last of the flash to the first, and other bytes than zeros after the names. */
static void put_table(size_t at, enum table table, int slots) {
    int rows = slots + SYSTEM_ENTRIES, slot = 0, system = 0;
    uint8_t filling = table == MIXED ? 0xEE : 0;
    char name[16];
    memset(image + at, 0, BLOCK);
    put(at, 0x57713427, 4);
    put(at + 8, (uint64_t)rows, 4);
    for (int row = 0; row < rows; row++) {
        size_t entry = at + 0x20 + 32 * (size_t)row;
        if (is_system_row(table, row, rows)) {
            put_system_entry(entry, system++, filling);
            continue;
        }
        starts[slot] = FIRST_SLOT + (uint64_t)BLOCK * (uint64_t)(table == MIXED ? slots - 1 - slot : slot);
        snprintf(name, sizeof name, "SLOT%d", slot);
        put_entry(entry, name, filling, starts[slot], BLOCK, 0);
        slot++;
    }
}

static uint64_t place_value(enum pointers pointers, int place, int slots) {
    switch (pointers) {
    case TWO: return place < 2 ? starts[place] : UINT64_MAX;
    case ALL_SLOTS: return place % 5 == 4 ? (uint64_t)place : starts[place % slots]; /* with strays between */
    case ONE_SLOT: return starts[slots - 1];
    case SPENT: return place == 0 ? starts[0] : 0;
    default: return UINT64_MAX;
    }
}

static void put_pointers(size_t at, enum pointers pointers, int slots) {
    static const uint64_t header[] = {0x57789609, 0x18, BLOCK, 0, 0x20, PLACES, 0, 0};
    for (size_t i = 0; i < 8; i++) put(at + 4 * i, header[i], 4);
    for (int place = 0; place < PLACES; place++)
        put(at + 0x20 + 8 * (size_t)place, place_value(pointers, place, slots), 8);
}

/* The boot order: from place 507 down, each slot that was not met before. */
static void expect_order(enum pointers pointers, int slots) {
    int met[SLOTS_MAX] = {0};
    expected_count = 0;
    for (int place = PLACES - 1; place >= 0; place--)
        for (int slot = 0; slot < slots; slot++)
            if (starts[slot] == place_value(pointers, place, slots) && !met[slot]++)
                expected[expected_count++] = (uint32_t)slot;
}

static void make_image(enum table table, enum pointers pointers, int slots) {
    image_length = FIRST_SLOT + (size_t)slots * BLOCK;
    memset(image, 0xFF, sizeof image);
    put_table(SPT0, table, slots);
    put_table(SPT1, table, slots);
    put_pointers(CPB0, pointers, slots);
    put_pointers(CPB1, pointers, slots);
    expect_order(pointers, slots);
}

/* ---- Calls */

static struct {
    size_t image_length, granule, spt0, spt1, row_length;
} given;
static uint32_t row[DELUNKPAWI_ORDER_MAX];
static size_t count;
static uint8_t answer;
static size_t deepest, runs;

static void call_order(void) {
    answer = delunkpawi_order(image, given.image_length, given.granule, given.spt0, given.spt1, row, given.row_length,
                              &count);
}

static void give_image(void) {
    given.image_length = image_length;
    given.granule = GRANULE;
    given.spt0 = SPT0;
    given.spt1 = SPT1;
    given.row_length = DELUNKPAWI_ORDER_MAX;
}

/* The answer is the order, in the front of the row, or the refusal, which leaves row and count as they were. */
static void check_answer(int refusal) {
    size_t listed = refusal ? 0 : expected_count;
    if (answer != refusal) fail("another refusal than expected");
    if (count != (refusal ? 9999 : expected_count)) fail("another count than expected");
    if (memcmp(row, expected, listed * sizeof *row) != 0) fail("another order than expected");
    for (size_t i = listed; i < DELUNKPAWI_ORDER_MAX; i++)
        if (row[i] != 0xABCDABCD) fail("the row is changed past the order");
}

static void try_call(int slots, const char *table, const char *what, int refusal) {
    for (size_t i = 0; i < DELUNKPAWI_ORDER_MAX; i++) row[i] = 0xABCDABCD;
    count = 9999;
    size_t depth = depth_of(call_order);
    printf("%5d  %-11s  %-34s  %-8s %3zu  %7zu\n", slots, table, what, refusal ? "refused" : "order of",
           refusal ? (size_t)refusal : expected_count, depth);
    check_answer(refusal);
    if (depth > deepest) deepest = depth;
    runs++;
}

static void try_orders(int slots) {
    for (int table = 0; table < TABLES; table++)
        for (int pointers = 0; pointers < POINTERS; pointers++) {
            make_image((enum table)table, (enum pointers)pointers, slots);
            give_image();
            try_call(slots, table_names[table], pointer_names[pointers], 0);
        }
}

/* ---- Spoilt images and numbers */

enum spoilt { LENGTH, GRANULE_OTHER, SAME_ADDRESS, HEADERS, LAST_NAME, LAST_RANGE, NO_CPB1, POINTER_BLOCKS, SHORT_ROW,
              SECOND_COPIES, EXACT_ROW, SPOILT };
static const struct { const char *name; int refusal; } spoilt_names[] = {
    {"length not a multiple of 4,096", 1}, {"granule of 5,000", 2},        {"SPT1 where SPT0 is", 3},
    {"no table has its magic", 50},        {"last name is the first", 51}, {"last range overlaps the first", 51},
    {"no entry CPB1", 51},                 {"no pointer block stands", 5}, {"row one too short", 13},
    {"second copies read", 0},             {"row just long enough", 0}};

static void spoil_tables(size_t offset, const char *bytes, size_t length) {
    memcpy(image + SPT0 + offset, bytes, length);
    memcpy(image + SPT1 + offset, bytes, length);
}

/* Where an entry of that name is, from the start of the table. */
static size_t entry_of(const char *name) {
    size_t at = 0x20;
    while (strcmp((const char *)image + SPT0 + at, name) != 0) at += 32;
    return at;
}

static void spoil(enum spoilt spoilt, int slots) {
    size_t last = 0x20 + 32 * (size_t)(slots + SYSTEM_ENTRIES - 1);
    if (spoilt == LENGTH) given.image_length -= 1;
    if (spoilt == GRANULE_OTHER) given.granule = 5000;
    if (spoilt == SAME_ADDRESS) given.spt1 = SPT0;
    if (spoilt == HEADERS) spoil_tables(0, "\0\0\0\0", 4);
    if (spoilt == LAST_NAME) spoil_tables(last, (const char *)image + SPT0 + 0x20, 16);
    if (spoilt == LAST_RANGE) spoil_tables(last + 16, (const char *)image + SPT0 + 0x20 + 16, 12);
    if (spoilt == NO_CPB1) spoil_tables(entry_of("CPB1"), "CPB2", 4);
    if (spoilt == POINTER_BLOCKS || spoilt == SECOND_COPIES) put(CPB0 + 0x14, 0, 4);
    if (spoilt == POINTER_BLOCKS) put(CPB1, 0, 4);
    if (spoilt == SECOND_COPIES) put(SPT0 + 4, 1, 4);
    if (spoilt == SHORT_ROW) given.row_length = expected_count - 1;
    if (spoilt == EXACT_ROW) given.row_length = expected_count;
}

static void try_spoilt(int slots) {
    for (int table = 0; table < TABLES; table++)
        for (int spoilt = 0; spoilt < SPOILT; spoilt++) {
            make_image((enum table)table, spoilt == EXACT_ROW ? TWO : ALL_SLOTS, slots);
            give_image();
            spoil((enum spoilt)spoilt, slots);
            try_call(slots, table_names[table], spoilt_names[spoilt].name, spoilt_names[spoilt].refusal);
        }
}

/* ---- Starts */

static uint8_t job[DELUNKPAWI_JOB_SIZE];
static uint32_t last_slot;

#define FLASH image, image_length, GRANULE, SPT0, SPT1
#define NEW_NAME (const uint8_t *)"NEW", 3

static void call_enable(void) { answer = delunkpawi_enable(FLASH, last_slot, job, sizeof job); }
static void call_disable(void) { answer = delunkpawi_disable(FLASH, 0, job, sizeof job); }
static void call_rename(void) { answer = delunkpawi_rename(FLASH, last_slot, NEW_NAME, job, sizeof job); }
static void call_create(void) { answer = delunkpawi_create(FLASH, NEW_NAME, BLOCK, job, sizeof job); }
static void call_delete(void) { answer = delunkpawi_delete(FLASH, last_slot, job, sizeof job); }
static void call_repair(void) { answer = delunkpawi_repair(FLASH, job, sizeof job); }

static const struct { const char *name; void (*call)(void); } starts_of[] = {
    {"enable", call_enable}, {"disable", call_disable}, {"rename", call_rename},
    {"create", call_create}, {"delete", call_delete},   {"repair", call_repair}};

/* No slot is empty, and one granule is free. With the first two slots in the order all six start, but that a full table has
 * no row for a new slot. In a full block each place gives a slot, but for strays: the last slot is enabled by a new block or,
 * where four places have four other slots, not at all, and it is not deleted where it has a place. */
static int refusal_of(const char *start, enum pointers pointers, int slots, int places) {
    int has_place = 0;
    for (int place = 0; place < places; place++)
        if (place_value(pointers, place, slots) == starts[slots - 1]) has_place = 1;
    if (strcmp(start, "create") == 0) return slots == SLOTS_MAX ? 41 : 0;
    if (strcmp(start, "delete") == 0) return has_place ? 43 : 0;
    if (strcmp(start, "enable") == 0) return pointers == ALL_SLOTS && places == 4 && !has_place ? 15 : 0;
    return 0;
}

static void try_starts(int slots, enum pointers pointers, int places) {
    make_image(SLOTS_LAST, pointers, slots);
    image_length += BLOCK;
    for (int slot = 0; slot < slots; slot++) image[starts[slot]] = 0;
    put(CPB0 + 0x14, (uint64_t)places, 4);
    put(CPB1 + 0x14, (uint64_t)places, 4);
    last_slot = (uint32_t)slots - 1;
    for (size_t i = 0; i < sizeof starts_of / sizeof *starts_of; i++) {
        int refusal = refusal_of(starts_of[i].name, pointers, slots, places);
        size_t depth = depth_of(starts_of[i].call);
        printf("%5d  %-11s  %-22s %3d places  %-8s %3d  %7zu\n", slots, starts_of[i].name, pointer_names[pointers], places,
               refusal ? "refused" : "started", refusal, depth);
        if (answer != refusal) fail("a start has another answer than expected");
        if (depth > deepest) deepest = depth;
        runs++;
    }
}

int main(void) {
    static const int sizes[] = {3, 40, SLOTS_MAX};
    setvbuf(stdout, NULL, _IOLBF, 0); /* a call that passes the stack ends the program: what came before is seen */
    make_stack(STACK_SIZE);
    try_stack();
    printf("slots  table        pointers, or what is wrong          answer        deepest\n");
    for (size_t i = 0; i < 3; i++) {
        try_orders(sizes[i]);
        try_spoilt(sizes[i]);
    }
    printf("%zu runs on a stack of %d bytes: the deepest byte used is %zu\n", runs, STACK_SIZE, deepest);
    if (deepest > STACK_LIMIT) fail("more than 4,096 bytes of stack are used");

    make_stack(START_SIZE);
    deepest = runs = 0;
    printf("slots  start\n");
    for (size_t i = 0; i < 3; i++) {
        for (int places = 4; places <= PLACES; places += PLACES - 4) {
            try_starts(sizes[i], TWO, places);
            try_starts(sizes[i], ALL_SLOTS, places);
        }
    }
    printf("%zu starts on a stack of %d bytes: the deepest byte used is %zu\n", runs, START_SIZE, deepest);
    if (deepest > START_LIMIT) fail("a start uses more than 8,192 bytes of stack");
    return 0;
}
