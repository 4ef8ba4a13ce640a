/* Which rule each copy of the table breaks, in the words of docs/REFUSALS.md. */
#include "faults.h"

#include "library.h"
#include "status.h"

enum { NO_MAGIC = 50, NO_TABLE = 51, NO_ENTRY = 127, FIRST_ENTRY = 0x20, ENTRY_SIZE = 32 };

static const struct rule {
    int number;
    const char *meaning, *where, *next;
} rules[] = {
#include "rules.inc" /* made of docs/REFUSALS.md by tool/build */
};

struct faults faults_of(const struct flash *flash, int refused) {
    struct faults faults = {.address = {flash->spt0, flash->spt1}};
    if (refused != NO_MAGIC && refused != NO_TABLE) return faults;
    if (delunkpawi_table_faults(FLASH(flash), &faults.rule[0], &faults.entry[0], &faults.rule[1], &faults.entry[1]) == 0)
        faults.refused = refused;
    return faults;
}

static void say_fault(int refused, int copy, size_t address, const struct rule *rule, size_t entry) {
    if (entry == NO_ENTRY)
        fail(refused, "SPT%d at 0x%zx breaks rule %d: %s", copy, address, rule->number, rule->meaning);
    else
        fail(refused, "SPT%d at 0x%zx breaks rule %d at entry %zu, whose bytes are at 0x%zx: %s", copy, address,
             rule->number, entry, address + FIRST_ENTRY + ENTRY_SIZE * entry, rule->meaning);
    fail(refused, "  look at: %s", rule->where);
    fail(refused, "  next: %s", rule->next);
}

void say_faults(const struct faults *faults) {
    if (faults->refused == 0) return;
    for (int copy = 0; copy < TABLE_COPIES; copy++)
        for (size_t i = 0; i < sizeof rules / sizeof rules[0]; i++)
            if (rules[i].number == faults->rule[copy])
                say_fault(faults->refused, copy, faults->address[copy], &rules[i], faults->entry[copy]);
}
