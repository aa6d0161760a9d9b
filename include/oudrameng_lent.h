/*
 * The changes of a hart and the regions on records that the caller lends, as C functions: one hart's record, or a run of region records with
 * its count. They are proved functions of the crates lent_hart and lent_mmio_regions. `tools/build NAME` writes an archive of each, for
 * x86-64-v2, which needs nothing.
 *
 * A record has the words of a row of oudrameng.h, and a function gives the numbers of that header. No tables stand around a record or a
 * run, so each is judged alone: a hart's record passes with any number in `id`, and none of these is a request to a VM.
 *
 * What the caller sees to is what oudrameng.h says of slices and of one request at a time. A hart's record is a pointer to one: not null,
 * aligned for uint64_t, all of it written before and lent to nobody else during the call. A run is a pointer and a number of records. Its
 * count is how many of them stand, from the first on; the caller keeps it and lends it with the run.
 *
 * Nothing is asked of contents, lengths and counts. What is not as it must be is refused with 12:
 * - a hart's record is as docs/TABLES.md has a row of 12 words;
 * - a run has 1,024 records or more, of which at most 1,024 stand, each with base <= end; the others up to the 1,024th are 0. What lies past
 *   the 1,024th is neither read nor written.
 *
 * A refusal changes no word, and its count is the one that was lent. The numbers that a function may give are listed in the order in which
 * they are tested.
 */
#ifndef OUDRAMENG_LENT_H
#define OUDRAMENG_LENT_H

#include <stdbool.h>

#include "oudrameng.h"

#ifdef __cplusplus
extern "C" {
#endif

/* Registers of a hart's record: a0, a1, mepc, vsatp, mstatus and vsstatus. */
#define OUDRAMENG_REGISTERS 6

/* A hart's record: `vm` is 1, or 0 of a hardware hart's dummy. The operation has two numbers. */
struct oudrameng_confidential_hart {
    uint64_t vm;
    uint64_t id;
    uint64_t lifecycle;
    uint64_t operation;
    uint64_t x;
    uint64_t y;
    uint64_t registers[OUDRAMENG_REGISTERS];
};

/* A region's record: its base and one past its end. */
struct oudrameng_confidential_vm_mmio_region {
    uint64_t base;
    uint64_t end;
};

/* What adding and removing give: the number, and how many regions stand then. */
struct oudrameng_changed {
    uint64_t number;
    uint64_t count;
};

/* What asking for a region gives: the number, and whether one region contains it. A refusal says no. */
struct oudrameng_defined {
    uint64_t number;
    bool defined;
};

/* ---- a hart's record */

/* Starts a stopped hart, at an address and with an opaque number for its a1. Gives 12, 2, 4 or 0. */
uint64_t lent_start(struct oudrameng_confidential_hart *hart, uint64_t address, uint64_t opaque);

/* Suspends a started hart. Gives 12, 16, 5 or 0. */
uint64_t lent_suspend(struct oudrameng_confidential_hart *hart);

/* Stops a started hart. Gives 12, 16, 6 or 0. */
uint64_t lent_stop(struct oudrameng_confidential_hart *hart);

/* Wakes a suspended hart, at an address and with an opaque number for its a1. Gives 12, 16, 7 or 0. */
uint64_t lent_wake(struct oudrameng_confidential_hart *hart, uint64_t address, uint64_t opaque);

/* Powers a hart off, whatever its lifecycle. Gives 12, 16 or 0. */
uint64_t lent_off(struct oudrameng_confidential_hart *hart);

/* ---- a run of region records */

/* Adds the region of `size` addresses from `base` on after those that stand. Gives 12, 11, 9, 10 or 0. */
struct oudrameng_changed lent_add_mmio_region(
    struct oudrameng_confidential_vm_mmio_region *regions, size_t regions_records, uint64_t count, uint64_t base, uint64_t size);

/* Removes every region that overlaps the one given. The others close up in their order, and the freed records are 0. Gives 12, 11 or 0. */
struct oudrameng_changed lent_remove_mmio_region(
    struct oudrameng_confidential_vm_mmio_region *regions, size_t regions_records, uint64_t count, uint64_t base, uint64_t size);

/* Asks whether one region contains the one given. Writes nothing. Gives 12, 11 or 0. */
struct oudrameng_defined lent_is_mmio_region_defined(
    const struct oudrameng_confidential_vm_mmio_region *regions, size_t regions_records, uint64_t count, uint64_t base, uint64_t size);

#ifdef __cplusplus
}
#endif

#endif
