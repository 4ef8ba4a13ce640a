/* A verified flash updater for remote system update: its functions as C calls them.
 *
 * The library is made by `link/build`, for x86-64 Linux. Nothing checks this header against it but the programs that
 * `link/build` runs, so pass exactly these types.
 *
 * What every function asks of its caller, and all that it asks:
 *   - a pointer is not null, also where its length is 0, and what it points to stays valid during the call;
 *   - nothing else writes to what is lent during the call, and what is lent for writing overlaps nothing else lent.
 * Numbers may be any: what is out of bounds is refused.
 *
 * What every function gives: 0, or the number of a refusal. A refusal leaves all that was lent as it was.
 *
 *    1  image length not a multiple of 4,096 from 4,096 to 268,435,456
 *    2  granule not 4,096, 32,768 or 65,536
 *    3  the two addresses equal, not multiples of the granule, or too near the end of the image
 *   50  no copy of the table stands, and neither begins with the magic
 *   51  no copy of the table stands, and one begins with the magic
 *    5  no copy of the pointer block stands
 *    6  the copies of a pair disagree: repair first
 *    7  no such slot
 *    8  the slot to disable is not in the boot order
 *    9  a new name of 0 or over 15 bytes, with a zero byte, or one of the six fixed names
 *   10  another entry has the new name
 *   11  the job is finished
 *   12  another image length than at the start, or a step outside the image
 *   13  the lent row is shorter than the boot order
 *   14  the slot to enable is empty: its first 4,096 bytes are all 0xFF
 *   15  the pointer block has no place for one slot more in the boot order
 *   40  the length of a new slot is 0 or not a multiple of 4,096
 *   41  the table has 127 entries already
 *   42  no start for a new slot of this length
 *   43  the slot to delete is in the boot order
 *   90  the job's buffer has another length than DELUNKPAWI_JOB_SIZE, or holds no job
 *   91  the bytes lent for a name are too few
 *   92  no such entry
 *   93  no such place
 *
 * They are listed in the order of checking, but that 90 comes before all others. docs/REFUSALS.md says what to do about
 * each; delunkpawi_table_faults tells what each copy of the table breaks after 50 or 51.
 */
#ifndef DELUNKPAWI_H
#define DELUNKPAWI_H

#include <stddef.h>
#include <stdint.h>

/* The length of a job's buffer, which delunkpawi_job_size() returns too. */
#define DELUNKPAWI_JOB_SIZE 9264

/* Rows and names of these lengths are long enough for every image. */
#define DELUNKPAWI_ORDER_MAX 127
#define DELUNKPAWI_NAME_MAX 16

#ifdef __cplusplus
extern "C" {
#endif

/* ---- Reading a flash: the image, its erase granule, and the addresses of the two copies of its table. */

/* The boot order's slot numbers, first choice first, into the front of the row, and how many there are. */
uint8_t delunkpawi_order(const uint8_t *image, size_t image_length, size_t granule, size_t spt0, size_t spt1,
                         uint32_t *row, size_t row_length, size_t *count);

/* How many application slots there are. They are numbered from 0, in the order of the table. */
uint8_t delunkpawi_slot_count(const uint8_t *image, size_t image_length, size_t granule, size_t spt0, size_t spt1,
                              size_t *count);

/* The row of a slot in the table, where it starts, how long it is, and its flags. */
uint8_t delunkpawi_slot_facts(const uint8_t *image, size_t image_length, size_t granule, size_t spt0, size_t spt1,
                              uint32_t slot, size_t *entry, uint64_t *start, uint64_t *size, uint64_t *flags);

/* The name of a slot into the front of the lent bytes, with no zero at its end, and its length. */
uint8_t delunkpawi_slot_name(const uint8_t *image, size_t image_length, size_t granule, size_t spt0, size_t spt1,
                             uint32_t slot, uint8_t *name, size_t name_length, size_t *count);

/* ---- Looking into a flash: more than its slots and their order. */

/* Where the table read puts the two copies of the pointer block, and where the copies stand that are read: `table` is
 * spt0 or spt1, `pointers` is cpb0 or cpb1. */
uint8_t delunkpawi_view(const uint8_t *image, size_t image_length, size_t granule, size_t spt0, size_t spt1,
                        size_t *cpb0, size_t *cpb1, size_t *table, size_t *pointers);

/* For each of the four blocks 1 if it stands, else 0; for each pair 1 if it agrees (both copies stand and are equal),
 * else 0. */
uint8_t delunkpawi_copies(const uint8_t *image, size_t image_length, size_t granule, size_t spt0, size_t spt1,
                          uint8_t *spt0_stands, uint8_t *spt1_stands, uint8_t *cpb0_stands, uint8_t *cpb1_stands,
                          uint8_t *tables_agree, uint8_t *pointers_agree);

/* For each of SPT0 and SPT1 the first broken rule, 1 to 11 in the order of docs/REFUSALS.md, and the number of the entry
 * that breaks it, 127 where the rule is about no entry by itself; 0 and 127 for a copy that stands. Refused 1 to 3 only. */
uint8_t delunkpawi_table_faults(const uint8_t *image, size_t image_length, size_t granule, size_t spt0, size_t spt1,
                                uint8_t *spt0_rule, size_t *spt0_entry, uint8_t *spt1_rule, size_t *spt1_entry);

/* How many entries the table read has, slots or not. They are numbered from 0. */
uint8_t delunkpawi_entry_count(const uint8_t *image, size_t image_length, size_t granule, size_t spt0, size_t spt1,
                               size_t *count);

/* The name of an entry into the front of the lent bytes, with no zero at its end, and its length; where the entry
 * starts, how long it is, and its flags. */
uint8_t delunkpawi_entry(const uint8_t *image, size_t image_length, size_t granule, size_t spt0, size_t spt1,
                         size_t entry, uint8_t *name, size_t name_length, size_t *name_count, uint64_t *start,
                         uint64_t *size, uint64_t *flags);

/* How many places the pointer block read has. They are numbered from 0; the last in use comes first in the order. */
uint8_t delunkpawi_place_count(const uint8_t *image, size_t image_length, size_t granule, size_t spt0, size_t spt1,
                               size_t *count);

/* What a place holds: kind 0 for erased, 1 for live, 2 for spent (value 0), 3 for part-written (top byte 0xFF), 4 for
 * stray, which is any other value; the slot of a live place, else 0; and its value. 2 and above are dead places. */
uint8_t delunkpawi_place(const uint8_t *image, size_t image_length, size_t granule, size_t spt0, size_t spt1,
                         size_t place, uint8_t *kind, uint32_t *slot, uint64_t *value);

/* ---- Starting a job. The image is only read. The job, its steps not yet done, is left in the lent buffer; bytes of it
   that the job does not use stay as they were. */

size_t delunkpawi_job_size(void);

/* The slot comes first in the boot order. Its first 4,096 bytes are read too: 14 if they are all 0xFF. 15 where each place
 * of the pointer block has a slot of its own, and this slot has none. */
uint8_t delunkpawi_enable(const uint8_t *image, size_t image_length, size_t granule, size_t spt0, size_t spt1,
                          uint32_t slot, uint8_t *job, size_t job_length);

/* The slot leaves the boot order. */
uint8_t delunkpawi_disable(const uint8_t *image, size_t image_length, size_t granule, size_t spt0, size_t spt1,
                           uint32_t slot, uint8_t *job, size_t job_length);

/* The slot gets another name. */
uint8_t delunkpawi_rename(const uint8_t *image, size_t image_length, size_t granule, size_t spt0, size_t spt1,
                          uint32_t slot, const uint8_t *name, size_t name_length, uint8_t *job, size_t job_length);

/* A new slot with this name and this length, a multiple of 4,096 and not 0. It comes last in the table, at the lowest
   multiple of 4,096 from which the length fits into the image, overlaps no partition, and which no pointer place holds. */
uint8_t delunkpawi_create(const uint8_t *image, size_t image_length, size_t granule, size_t spt0, size_t spt1,
                          const uint8_t *name, size_t name_length, uint32_t length, uint8_t *job, size_t job_length);

/* The slot, which is not in the boot order, leaves the table. The slots after it are then one number lower: after a cut
   list the slots again before you name a number. */
uint8_t delunkpawi_delete(const uint8_t *image, size_t image_length, size_t granule, size_t spt0, size_t spt1,
                          uint32_t slot, uint8_t *job, size_t job_length);

/* Where the two copies of the table or of the pointer block disagree, the copy not read becomes the copy read. */
uint8_t delunkpawi_repair(const uint8_t *image, size_t image_length, size_t granule, size_t spt0, size_t spt1,
                          uint8_t *job, size_t job_length);

/* ---- Running it.
 *
 * A run of many steps is for an image in memory. What is proved of a run is what image, job and count hold when it
 * returns: nothing is said of the moments between. On a device a driver goes step by step: it asks delunkpawi_next_step,
 * carries that one step out, and counts it with delunkpawi_advance, until no step is left.
 *
 * A job's buffer may be stored and passed on between steps. But a job that was cut, by a power failure or by a step that
 * failed, is dropped and never resumed: list the boot order, start a repair, run it to its end, and give the command
 * again if the order is still the old one. */

/* Does so many steps, or all that remain, on the image, and tells how many it did. The job is left advanced by them. */
uint8_t delunkpawi_run(uint8_t *job, size_t job_length, uint8_t *image, size_t image_length, size_t budget,
                       size_t *done);

/* How many steps remain. */
uint8_t delunkpawi_remaining(const uint8_t *job, size_t job_length, size_t *count);

/* Which step comes next, for a driver that does the steps on a device itself: kind 0 for none, 1 for `byte` programmed
 * (new byte = old AND given) at `address`, 2 for the granule at `address` erased. */
uint8_t delunkpawi_next_step(const uint8_t *job, size_t job_length, uint8_t *kind, size_t *address, uint8_t *byte);

/* Counts so many steps that a driver carried out itself, in their order, or all that remain; tells how many it counted.
 * The job is left advanced by them, as by a run; no image is touched. Refused 90, then 11. */
uint8_t delunkpawi_advance(uint8_t *job, size_t job_length, size_t steps, size_t *count);

#ifdef __cplusplus
}
#endif

#endif
