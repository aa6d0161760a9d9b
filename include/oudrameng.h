/*
 * The hart tables of one confidential VM, as C functions: the entries of the tables and of the flow. They are proved functions of the crate
 * monitor_exports. `tools/build monitor_exports` writes the archive, for x86-64-v2, which needs nothing but memcpy and memset.
 *
 * A function takes plain numbers and the VM's tables, which the caller lends as five slices, and gives a number: 0 if the request was done,
 * or why it was refused. One VM has n harts (1 to 1,024) on m hardware harts (1 to 64). The slices, in 64-bit words:
 *
 *   head      4 words           n, m, the allowed mask, how many regions stand
 *   home      n rows of 12      row h holds hart h, or the dummy of the hardware hart that it runs on
 *   hardware  m rows of 12      row k holds dummy k, or the hart that runs there
 *   queues    n rows of 385     row h: how many commands wait for hart h, then 64 places of 6 words
 *   regions   1,024 rows of 2   base and one past the end, in the order of adding
 *
 * docs/TABLES.md has each word of a row. A slice may be longer; what lies past its last row is neither read nor written.
 *
 * What the caller sees to:
 * - One request at a time. No function may be called while another works on the same tables.
 * - The same tables are lent to each request, and between requests nobody else writes them.
 * - Slices of one call do not overlap.
 * - A slice is a pointer and a number of words: so many may be read there, and written where the pointer is not const. All of them have
 *   been written before, for oudrameng_new too. Static memory has been; it is 0.
 * - The kit's guides say nothing of the pointers that a caller in C passes, so keep what Rust asks of slices: a pointer is not null and is
 *   aligned for uint64_t, of an empty slice too.
 *
 * Nothing is asked of contents and lengths. Tables that are not sound, too short ones among them, are refused with 12; tables too short for
 * a setup, and an effects room or a value slice that is too short, with 13. A refusal changes no word of tables or effects, except 8: then
 * the harts below the refusing one keep the command that they got, and what the sender of a flow's broadcast did itself stands.
 *
 * Where an answer has values they go over the front of one more slice, `value`, whose other words stay. A refusal writes none there, but
 * for the count of effect records that the three functions with an effects room give. The numbers that a function may give are listed in
 * the order in which they are tested. docs/FLOW.md has what the flow's functions do.
 */
#ifndef OUDRAMENG_H
#define OUDRAMENG_H

#include <stddef.h>
#include <stdint.h>

#ifdef __cplusplus
extern "C" {
#endif

/* Words of the head, and of a row of each table. */
#define OUDRAMENG_HEAD_WORDS 4
#define OUDRAMENG_HART_WORDS 12
#define OUDRAMENG_QUEUE_WORDS 385
#define OUDRAMENG_REGION_WORDS 2

/* The most harts and hardware harts that a VM has, commands that a queue has, and regions. */
#define OUDRAMENG_MOST_HARTS 1024
#define OUDRAMENG_MOST_HARDWARE_HARTS 64
#define OUDRAMENG_MOST_COMMANDS 64
#define OUDRAMENG_MOST_REGIONS 1024

/* Words of an effect record: the hart's number, and the command's kind, mask, base, start, size and tag. */
#define OUDRAMENG_EFFECT_WORDS 7

/* Words that `value` must have: in the functions that give values, and in those that do commands. */
#define OUDRAMENG_VALUE_WORDS 4
#define OUDRAMENG_REPLY_VALUE_WORDS 5

/* The numbers that are given back. */
enum oudrameng_answer {
    OUDRAMENG_DONE = 0,
    OUDRAMENG_INVALID_HART_ID = 1,
    OUDRAMENG_HART_ALREADY_RUNNING = 2,
    OUDRAMENG_HART_NOT_EXECUTABLE = 3,
    OUDRAMENG_CANNOT_START_NOT_STOPPED_HART = 4,
    OUDRAMENG_CANNOT_SUSPED_NOT_STARTED_HART = 5,
    OUDRAMENG_CANNOT_STOP_NOT_STARTED_HART = 6,
    OUDRAMENG_CANNOT_START_NOT_SUSPENDED_HART = 7,
    OUDRAMENG_REACHED_MAX_NUMBER_OF_REMOTE_COMMANDS = 8,
    OUDRAMENG_REACHED_MAX_NUMBER_OF_MMIO_REGIONS = 9,
    OUDRAMENG_OVERLAPPING_MMIO_REGION = 10,
    OUDRAMENG_END_TOO_LARGE = 11,
    OUDRAMENG_TABLES_NOT_SOUND = 12,
    OUDRAMENG_ROOM_TOO_SHORT = 13,
    OUDRAMENG_NO_SUCH_HARDWARE_HART = 14,
    OUDRAMENG_HARDWARE_HART_BUSY = 15,
    OUDRAMENG_HARDWARE_HART_IDLE = 16,
    OUDRAMENG_OPERATION_PENDING = 17,
    OUDRAMENG_SETUP_OUT_OF_RANGE = 18,
    OUDRAMENG_UNKNOWN_KIND = 19
};

/* A hart's lifecycle. */
enum oudrameng_lifecycle {
    OUDRAMENG_STARTED = 0,
    OUDRAMENG_STOPPED = 1,
    OUDRAMENG_SUSPENDED = 2,
    OUDRAMENG_POWERED_OFF = 3
};

/* Kinds of remote commands. The first two use mask and base, the third also start and size, the next two also tag, the last none; an unused
   number must be 0. */
enum oudrameng_command {
    OUDRAMENG_IPI = 1,
    OUDRAMENG_REMOTE_FENCE_I = 2,
    OUDRAMENG_REMOTE_SFENCE_VMA = 3,
    OUDRAMENG_REMOTE_SFENCE_VMA_ASID = 4,
    OUDRAMENG_REMOTE_HFENCE_GVMA_VMID = 5,
    OUDRAMENG_SHUTDOWN_REQUEST = 6
};

/* Kinds of operations that a hart may wait for. */
enum oudrameng_operation {
    OUDRAMENG_NO_OPERATION = 0,
    OUDRAMENG_SBI_REQUEST = 1,
    OUDRAMENG_RESUME_HART = 2,
    OUDRAMENG_MMIO_LOAD = 3,
    OUDRAMENG_MMIO_STORE = 4,
    OUDRAMENG_SHARE_PAGE = 5
};

/* What a resumed hart goes on with. */
enum oudrameng_going {
    OUDRAMENG_RUN = 0,
    OUDRAMENG_OFF = 1,
    OUDRAMENG_OPERATION = 2
};

/* ---- the tables */

/* Gives 1 if the tables are sound and 0 if not, and no other number. Writes nothing. */
uint64_t oudrameng_are_tables_sound(
    const uint64_t *head, size_t head_words, const uint64_t *home, size_t home_words, const uint64_t *hardware, size_t hardware_words,
    const uint64_t *queues, size_t queues_words, const uint64_t *regions, size_t regions_words);

/* Sets up a VM of n harts on m hardware harts, whatever stands in the tables. Hart `boot` is Started with these registers, the others are
   Stopped. Gives 18, 13 or 0. */
uint64_t oudrameng_new(
    uint64_t n, uint64_t m, uint64_t boot, uint64_t a1, uint64_t mepc, uint64_t vsatp, uint64_t vsstatus,
    uint64_t *head, size_t head_words, uint64_t *home, size_t home_words, uint64_t *hardware, size_t hardware_words,
    uint64_t *queues, size_t queues_words, uint64_t *regions, size_t regions_words);

/* Assigns a hart to hardware hart `on`. The value is the allowed mask. Gives 13 (value), 12, 14, 15, 1, 2, 3 or 0. */
uint64_t oudrameng_steal_confidential_hart(
    uint64_t hart, uint64_t on,
    const uint64_t *head, size_t head_words, uint64_t *home, size_t home_words, uint64_t *hardware, size_t hardware_words,
    const uint64_t *queues, size_t queues_words, const uint64_t *regions, size_t regions_words, uint64_t *value, size_t value_words);

/* Takes the hart that hardware hart `on` holds home. Gives 12, 14, 16 or 0. */
uint64_t oudrameng_return_confidential_hart(
    uint64_t on,
    const uint64_t *head, size_t head_words, uint64_t *home, size_t home_words, uint64_t *hardware, size_t hardware_words,
    const uint64_t *queues, size_t queues_words, const uint64_t *regions, size_t regions_words);

/* Joins bits to the mask of allowed external interrupts. Gives 12 or 0. */
uint64_t oudrameng_allow_external_interrupt(
    uint64_t bits,
    uint64_t *head, size_t head_words, const uint64_t *home, size_t home_words, const uint64_t *hardware, size_t hardware_words,
    const uint64_t *queues, size_t queues_words, const uint64_t *regions, size_t regions_words);

/* Starts a hart that is at home, at an address and with an opaque number for its a1. Gives 12, 1, 2, 4 or 0. */
uint64_t oudrameng_start_confidential_hart(
    uint64_t hart, uint64_t address, uint64_t opaque,
    const uint64_t *head, size_t head_words, uint64_t *home, size_t home_words, const uint64_t *hardware, size_t hardware_words,
    const uint64_t *queues, size_t queues_words, const uint64_t *regions, size_t regions_words);

/* The value is the lifecycle of a hart; one that runs on a hardware hart is Started. Gives 13 (value), 12, 1 or 0. */
uint64_t oudrameng_confidential_hart_lifecycle_state(
    uint64_t hart,
    const uint64_t *head, size_t head_words, const uint64_t *home, size_t home_words, const uint64_t *hardware, size_t hardware_words,
    const uint64_t *queues, size_t queues_words, const uint64_t *regions, size_t regions_words, uint64_t *value, size_t value_words);

/* The value is 1 if every hart is at home, and else 0; the Rust has it under this name. Gives 13 (value), 12 or 0. */
uint64_t oudrameng_is_vm_executing(
    const uint64_t *head, size_t head_words, const uint64_t *home, size_t home_words, const uint64_t *hardware, size_t hardware_words,
    const uint64_t *queues, size_t queues_words, const uint64_t *regions, size_t regions_words, uint64_t *value, size_t value_words);

/* Queues a command for every hart that it selects, but for hart `sender`. The value is the mask of hardware harts to interrupt. Gives
   13 (value), 12, 19, 8 or 0. */
uint64_t oudrameng_broadcast_remote_command(
    uint64_t sender, uint64_t kind, uint64_t mask, uint64_t base, uint64_t start, uint64_t size, uint64_t tag,
    const uint64_t *head, size_t head_words, const uint64_t *home, size_t home_words, const uint64_t *hardware, size_t hardware_words,
    uint64_t *queues, size_t queues_words, const uint64_t *regions, size_t regions_words, uint64_t *value, size_t value_words);

/* Adds a region of device addresses. Gives 12, 11, 9, 10 or 0. */
uint64_t oudrameng_add_mmio_region(
    uint64_t base, uint64_t size,
    uint64_t *head, size_t head_words, const uint64_t *home, size_t home_words, const uint64_t *hardware, size_t hardware_words,
    const uint64_t *queues, size_t queues_words, uint64_t *regions, size_t regions_words);

/* Removes every region that overlaps the one given. Gives 12, 11 or 0. */
uint64_t oudrameng_remove_mmio_region(
    uint64_t base, uint64_t size,
    uint64_t *head, size_t head_words, const uint64_t *home, size_t home_words, const uint64_t *hardware, size_t hardware_words,
    const uint64_t *queues, size_t queues_words, uint64_t *regions, size_t regions_words);

/* The value is 1 if one region contains the one given, and else 0. Gives 13 (value), 12, 11 or 0. */
uint64_t oudrameng_is_mmio_region_defined(
    uint64_t base, uint64_t size,
    const uint64_t *head, size_t head_words, const uint64_t *home, size_t home_words, const uint64_t *hardware, size_t hardware_words,
    const uint64_t *queues, size_t queues_words, const uint64_t *regions, size_t regions_words, uint64_t *value, size_t value_words);

/* ---- the flow: what is asked of the hart that hardware hart `on` holds */

/* Suspends the hart. Gives 12, 14, 16, 5 or 0. */
uint64_t oudrameng_suspend_confidential_hart(
    uint64_t on,
    const uint64_t *head, size_t head_words, const uint64_t *home, size_t home_words, uint64_t *hardware, size_t hardware_words,
    const uint64_t *queues, size_t queues_words, const uint64_t *regions, size_t regions_words);

/* Stops the hart. Gives 12, 14, 16, 6 or 0. */
uint64_t oudrameng_stop_confidential_hart(
    uint64_t on,
    const uint64_t *head, size_t head_words, const uint64_t *home, size_t home_words, uint64_t *hardware, size_t hardware_words,
    const uint64_t *queues, size_t queues_words, const uint64_t *regions, size_t regions_words);

/* Wakes the hart, at an address and with an opaque number for its a1. Gives 12, 14, 16, 7 or 0. */
uint64_t oudrameng_resume_confidential_hart(
    uint64_t on, uint64_t address, uint64_t opaque,
    const uint64_t *head, size_t head_words, const uint64_t *home, size_t home_words, uint64_t *hardware, size_t hardware_words,
    const uint64_t *queues, size_t queues_words, const uint64_t *regions, size_t regions_words);

/* Powers the hart off. Gives 12, 14, 16 or 0. */
uint64_t oudrameng_shutdown_confidential_hart(
    uint64_t on,
    const uint64_t *head, size_t head_words, const uint64_t *home, size_t home_words, uint64_t *hardware, size_t hardware_words,
    const uint64_t *queues, size_t queues_words, const uint64_t *regions, size_t regions_words);

/* Sets the operation that the hart waits for, with two numbers that are carried unread. Gives 12, 19, 14, 16, 17 or 0. */
uint64_t oudrameng_set_resumable_operation(
    uint64_t on, uint64_t kind, uint64_t x, uint64_t y,
    const uint64_t *head, size_t head_words, const uint64_t *home, size_t home_words, uint64_t *hardware, size_t hardware_words,
    const uint64_t *queues, size_t queues_words, const uint64_t *regions, size_t regions_words);

/* The three below do commands. For each they write an effect record over the front of `effects`, in order, and leave its other words. The
   first value is how many records were written, on a refusal too: it is 0, or after 8 what the sender did. Only where `value` is too short
   is nothing written there. */

/* The hart sends a command: if the command selects the hart, it does it itself first. The values are the count of records, 1 or 0, and
   where the request is done the mask of hardware harts to interrupt. Needs room for 1 record. Gives 13 (value), 12, 13 (effects), 19, 14,
   16, 8 or 0. */
uint64_t oudrameng_flow_broadcast_remote_command(
    uint64_t on, uint64_t kind, uint64_t mask, uint64_t base, uint64_t start, uint64_t size, uint64_t tag,
    const uint64_t *head, size_t head_words, const uint64_t *home, size_t home_words, uint64_t *hardware, size_t hardware_words,
    uint64_t *queues, size_t queues_words, const uint64_t *regions, size_t regions_words,
    uint64_t *effects, size_t effects_words, uint64_t *value, size_t value_words);

/* The hart does every command of its queue, which is empty afterwards. The values are the count of records, and where the request is done
   the same count again as its answer. Needs room for 64 records. Gives 13 (value), 12, 13 (effects), 14, 16 or 0. */
uint64_t oudrameng_process_confidential_hart_remote_commands(
    uint64_t on,
    const uint64_t *head, size_t head_words, const uint64_t *home, size_t home_words, uint64_t *hardware, size_t hardware_words,
    uint64_t *queues, size_t queues_words, const uint64_t *regions, size_t regions_words,
    uint64_t *effects, size_t effects_words, uint64_t *value, size_t value_words);

/* The same, and then what the hart goes on with. The values are the count of records, and where the request is done OUDRAMENG_RUN, _OFF or
   _OPERATION; after _OPERATION come its kind and two numbers, and the hart waits no more. Needs room for 64 records. Gives 13 (value), 12,
   13 (effects), 14, 16 or 0. */
uint64_t oudrameng_resume_confidential_hart_execution(
    uint64_t on,
    const uint64_t *head, size_t head_words, const uint64_t *home, size_t home_words, uint64_t *hardware, size_t hardware_words,
    uint64_t *queues, size_t queues_words, const uint64_t *regions, size_t regions_words,
    uint64_t *effects, size_t effects_words, uint64_t *value, size_t value_words);

#ifdef __cplusplus
}
#endif

#endif
