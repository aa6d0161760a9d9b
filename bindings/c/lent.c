/*
 * A hart's record and a run of regions, lent from C: a hart is started, stopped and stopped again; document 01's P2 adds two regions side by
 * side, one of them is asked for and removed, and one has too large an end. It prints each answer and what then stands.
 */
#include <inttypes.h>
#include <stdio.h>

#include "oudrameng_lent.h"

/* The run. Static memory is 0, so none stands. */
static struct oudrameng_confidential_vm_mmio_region regions[OUDRAMENG_MOST_REGIONS];
static uint64_t count;

/* A number, and the hart's lifecycle, a0, a1 and mepc. */
static void print_hart(const char *change, uint64_t number, const struct oudrameng_confidential_hart *hart)
{
    printf("%s\t%" PRIu64 "\t%" PRIu64 "\t%" PRIu64 "\t%" PRIu64 "\t%" PRIu64 "\n", change, number, hart->lifecycle, hart->registers[0],
           hart->registers[1], hart->registers[2]);
}

/* A number, and the base and the end of each region that stands then. The count is kept. */
static void print_regions(const char *change, struct oudrameng_changed changed)
{
    count = changed.count;
    printf("%s\t%" PRIu64, change, changed.number);
    for (uint64_t i = 0; i < count; i++) {
        printf("\t%" PRIu64 "\t%" PRIu64, regions[i].base, regions[i].end);
    }
    printf("\n");
}

/* A number, and whether a region contains the one given. */
static void print_defined(struct oudrameng_defined answer)
{
    printf("defined\t%" PRIu64 "\t%d\n", answer.number, answer.defined);
}

int main(void)
{
    struct oudrameng_confidential_hart hart = { .vm = 1, .id = 3, .lifecycle = OUDRAMENG_STOPPED };
    uint64_t number = lent_start(&hart, 64, 7);
    print_hart("start", number, &hart);
    number = lent_stop(&hart);
    print_hart("stop", number, &hart);
    number = lent_stop(&hart);
    print_hart("stop", number, &hart);

    print_regions("add", lent_add_mmio_region(regions, OUDRAMENG_MOST_REGIONS, count, 4096, 4096));
    print_regions("add", lent_add_mmio_region(regions, OUDRAMENG_MOST_REGIONS, count, 8192, 4096));
    print_defined(lent_is_mmio_region_defined(regions, OUDRAMENG_MOST_REGIONS, count, 4096, 4096));
    print_regions("remove", lent_remove_mmio_region(regions, OUDRAMENG_MOST_REGIONS, count, 5000, 0));
    print_defined(lent_is_mmio_region_defined(regions, OUDRAMENG_MOST_REGIONS, count, 4096, 4096));
    print_regions("add", lent_add_mmio_region(regions, OUDRAMENG_MOST_REGIONS, count, UINT64_MAX, 1));
    return 0;
}
