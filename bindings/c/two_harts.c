/*
 * One VM of two harts on two hardware harts, from C: the ten requests of document 01's whole run P1 (oracle/lists/P1.trace). It prints what
 * the trace program prints, all of it from the answers, the values and the effect records that the functions gave.
 */
#include <inttypes.h>
#include <stdio.h>

#include "oudrameng.h"

#define HARTS 2
#define HARDWARE_HARTS 2
#define HOME_WORDS (HARTS * OUDRAMENG_HART_WORDS)
#define HARDWARE_WORDS (HARDWARE_HARTS * OUDRAMENG_HART_WORDS)
#define QUEUES_WORDS (HARTS * OUDRAMENG_QUEUE_WORDS)
#define REGIONS_WORDS (OUDRAMENG_MOST_REGIONS * OUDRAMENG_REGION_WORDS)
#define EFFECTS_WORDS (OUDRAMENG_MOST_COMMANDS * OUDRAMENG_EFFECT_WORDS)

/* The tables, and the room for effects and values. */
static uint64_t head[OUDRAMENG_HEAD_WORDS];
static uint64_t home[HOME_WORDS];
static uint64_t hardware[HARDWARE_WORDS];
static uint64_t queues[QUEUES_WORDS];
static uint64_t regions[REGIONS_WORDS];
static uint64_t effects[EFFECTS_WORDS];
static uint64_t value[OUDRAMENG_REPLY_VALUE_WORDS];

/* The slices as every function takes them: first the tables, and then what it writes beside them. */
#define TABLES head, OUDRAMENG_HEAD_WORDS, home, HOME_WORDS, hardware, HARDWARE_WORDS, queues, QUEUES_WORDS, regions, REGIONS_WORDS
#define VALUE value, OUDRAMENG_REPLY_VALUE_WORDS
#define EFFECTS effects, EFFECTS_WORDS

/* The effect records that were written, a line each. */
static void print_effects(uint64_t records)
{
    for (uint64_t record = 0; record < records; record++) {
        printf("did");
        for (uint64_t word = 0; word < OUDRAMENG_EFFECT_WORDS; word++) {
            printf("\t%" PRIu64, effects[record * OUDRAMENG_EFFECT_WORDS + word]);
        }
        printf("\n");
    }
}

/* An answer without a value. */
static void print_number(uint64_t number)
{
    printf("%" PRIu64 "\n", number);
}

/* An answer that has one value if the request was done. */
static void print_value(uint64_t number, uint64_t data)
{
    if (number == OUDRAMENG_DONE) {
        printf("%" PRIu64 "\t%" PRIu64 "\n", number, data);
    } else {
        print_number(number);
    }
}

/* What a resumed hart goes on with: the values that follow the count of effect records. */
static void print_going(uint64_t number)
{
    if (number != OUDRAMENG_DONE) {
        print_number(number);
    } else if (value[1] == OUDRAMENG_RUN) {
        printf("%" PRIu64 "\trun\n", number);
    } else if (value[1] == OUDRAMENG_OFF) {
        printf("%" PRIu64 "\toff\n", number);
    } else {
        printf("%" PRIu64 "\top\t%" PRIu64 "\t%" PRIu64 "\t%" PRIu64 "\n", number, value[2], value[3], value[4]);
    }
}

/* Sets up the VM: n harts on m hardware harts, and the registers of the hart that boots. */
static void setup(uint64_t n, uint64_t m, uint64_t boot, uint64_t a1, uint64_t mepc, uint64_t vsatp, uint64_t vsstatus)
{
    print_number(oudrameng_new(n, m, boot, a1, mepc, vsatp, vsstatus, TABLES));
}

/* Assigns a hart to a hardware hart, and prints the allowed mask. */
static void steal(uint64_t hart, uint64_t on)
{
    uint64_t number = oudrameng_steal_confidential_hart(hart, on, TABLES, VALUE);
    print_value(number, value[0]);
}

/* Takes the hart of a hardware hart home. */
static void give_back(uint64_t on)
{
    print_number(oudrameng_return_confidential_hart(on, TABLES));
}

/* Starts a hart. */
static void start(uint64_t hart, uint64_t address, uint64_t opaque)
{
    print_number(oudrameng_start_confidential_hart(hart, address, opaque, TABLES));
}

/* The hart on a hardware hart interrupts others: bit i of the mask is hart base + i. Prints the mask of hardware harts to interrupt. */
static void broadcast_ipi(uint64_t on, uint64_t mask, uint64_t base)
{
    uint64_t number = oudrameng_flow_broadcast_remote_command(on, OUDRAMENG_IPI, mask, base, 0, 0, 0, TABLES, EFFECTS, VALUE);
    print_effects(value[0]);
    print_value(number, value[1]);
}

/* The hart on a hardware hart does the commands that waited for it, and goes on. */
static void resume(uint64_t on)
{
    uint64_t number = oudrameng_resume_confidential_hart_execution(on, TABLES, EFFECTS, VALUE);
    print_effects(value[0]);
    print_going(number);
}

/* Document 01's P1. */
int main(void)
{
    setup(HARTS, HARDWARE_HARTS, 0, 4096, 8192, 0, 0);
    steal(0, 0);
    steal(0, 1);
    steal(1, 1);
    start(1, 64, 7);
    broadcast_ipi(0, 3, 0);
    steal(1, 1);
    broadcast_ipi(0, 3, 0);
    resume(1);
    give_back(0);
    return 0;
}
