/* Core plans that are proved to be the best: the services for C callers. Link with libzombreki.a.
 *
 * Every answer, and what becomes of the lent bytes and words, is proved for every content and every length of what is lent
 * (crates/zombreki_c). No proof covers a caller that breaks one of these:
 *  - pointer and count belong together: that many elements can be read there and, where the pointer is not to const,
 *    written;
 *  - what is lent to one call does not overlap, and nobody else writes to it, or reads what the call writes, meanwhile;
 *  - `work` is aligned as uint32_t is, and `table` as uint64_t;
 *  - an empty slice has count 0; its pointer is not looked at and may be any.
 *
 * What a target without an operating system has to offer, measured on x86-64:
 *  - some 36 KB for code; the library has no data and no bss;
 *  - `memset`, the only symbol that it needs from outside;
 *  - beside what is lent, stack for a call: some 700 bytes to judge or for a single-block time, 1,000 for a timetable, 1,500 for the
 *    greedy plan, 2,000 for the best, 300 to 400 to fill in costs or for a reach;
 *  - SSE registers, and the red zone of the System V ABI: interrupts keep off the 128 bytes below the stack pointer.
 * Nothing is kept between calls, so calls from several threads, each on its own buffers, are safe. Held by tests/footprint
 * (the first two; code and constants to 37 KiB), tests/stack.c (a call to 2 KiB of stack) and tests/threads.c (two threads).
 */
#ifndef ZOMBREKI_H
#define ZOMBREKI_H

#include <stddef.h>
#include <stdint.h>

#ifdef __cplusplus
extern "C" {
#endif

/* The bytes of a plan, the words that the search for the best plan takes at least, and the most blocks of a timetable. */
#define ZOMBREKI_PLAN_BYTES 48
#define ZOMBREKI_WORK_WORDS 16384
#define ZOMBREKI_MOST_BLOCKS 1000

/* A module's response, in ticks: to receive a block from the module before, to execute its tasks with the transfers between them, and to send it
 * to the module after (a transfer between two modules counts in both); and D more if the module has more than one copy. D, 0 to 255, is
 * the task byte of the first cost record: what it takes to hand a block out to one of them. */

/* The number of a refusal (0 for none) and its place, or the figures of a plan. A refusal has zero figures. The costs are
 * refused with 1 to 6, the call with 7, 8 and 10, a judged plan with 12 to 16 (14: the shares of a module's tasks, each need /
 * cores of a copy rounded up, add to more than the capacity of a core; 16, before 15: a copy of a module has more cores than
 * byte b of one of its tasks' records allows), and where there is no such plan the planners refuse with 9 and 11. */
struct zombreki_answer {
    uint32_t refusal;  /* 0, or the number of the refusal */
    uint32_t place;    /* the record or module at fault, counted from 1; 0 where none is named */
    uint32_t modules;  /* how many modules the plan has */
    uint32_t cores;    /* the cores that it uses */
    uint32_t slowest;  /* the first module that reaches the bottleneck, counted from 1 */
    uint32_t response; /* its response in ticks, at most 23,000,255 */
    uint32_t copies;   /* its copies: the bottleneck is response / copies */
};

/* Judges plan bytes: the figures of the plan, or a refusal. */
struct zombreki_answer zombreki_judge(const uint8_t *costs, size_t costs_len, const uint8_t *plan, size_t plan_len);

/* Fills in the plan of the greedy procedure. Bit i of the grouping, counted from 0, ends a module after task i + 1. A
 * refusal leaves the plan bytes as they came; bytes after the 48th are never written. */
struct zombreki_answer zombreki_greedy_plan(const uint8_t *costs, size_t costs_len, uint16_t grouping, uint8_t *plan,
                                            size_t plan_len);

/* Fills in the best plan: least bottleneck, then fewest cores, then least single-block time, then module order. A refusal leaves
 * the plan bytes as they came; bytes after the 48th are never written. Afterwards the whole work area is zero, or untouched where
 * the refusal came before the search (any but 9). */
struct zombreki_answer zombreki_best_plan(const uint8_t *costs, size_t costs_len, uint8_t *plan, size_t plan_len,
                                          uint32_t *work, size_t work_len);

/* What the services below answer: how many bytes or entries were filled in, the reach or the single-block time; or a refusal's
 * number and place. */
struct zombreki_filled {
    uint32_t refusal; /* 0, or the number of the refusal */
    uint32_t place;   /* the record or module at fault, counted from 1; 0 where none is named */
    uint32_t count;   /* the bytes or entries filled in, the reach or the time; 0 in a refusal */
};

/* Fills in all cost records of a board from laws for its costs. `head` is the first part of a cost file, the records of kinds 1 and 2.
 * `laws` has one record of 24 bytes for each cost, 3k - 2 in all: kind 3 for tasks 1 to k, then kind 4 and then kind 5 for tasks 1 to
 * k - 1. Each is kind, task, form, a zero, and C1 to C5 of 32 bits, lowest byte first, unused ones zero:
 *   form 0, any kind       C1
 *   form 1, kinds 3 and 4  C1 + C2/p + C3*p on p cores
 *   form 2, kind 5         C1 + C2/s + C3/q + C4*s + C5*q for s sending and q receiving cores
 * Each quotient is rounded up by itself. `out` takes 8 * (1 + k + k*P + (k - 1)*P + (k - 1)*P*P) bytes, 96,104 at most. Refusals, in this
 * order: 1 to 6 on the first part (4: not 1 + k records), 17 (laws of a wrong length, field or form), 18 (a value above 1,000,000), 19
 * (`out` is too short). A refusal leaves `out` as it came; bytes after those filled in are never written. */
struct zombreki_filled zombreki_fill_costs(const uint8_t *head, size_t head_len, const uint8_t *laws, size_t laws_len,
                                           uint8_t *out, size_t out_len);

/* The reach of a task: the last task of the longest module that starts with `first` and whose memory some count of the board's cores, all
 * in one copy, can hold; 0 if there is none, and 0 if `first` is no task of the chain. Exactly the modules that end within the reach of
 * their first task can be held so. Core limits, copies and D don't enter it. Refusals: 1 to 6, on the costs. */
struct zombreki_filled zombreki_reach(const uint8_t *costs, size_t costs_len, uint8_t first);

/* The single-block time of a plan, in ticks: each task's execution and each transfer, within a module or between two, once, at the cores
 * of one copy of the module, or of each of the two; and D for each module with more than one copy. At most 23,003,060. Bytes after the
 * 48th are never read.
 * Refusals, as zombreki_judge gives them and with its places: 1 to 6 on the costs, 7 and 12 to 16 on the plan bytes. */
struct zombreki_filled zombreki_block_time(const uint8_t *costs, size_t costs_len, const uint8_t *plan, size_t plan_len);

/* The timetable of a stream of blocks through a plan with one copy of each module: entry i of the table, counted from 0, gets the tick
 * at which the last module is through with block i + 1, for blocks 1 to n. A module receives a block, executes it, sends it, and then
 * turns to the next one. A transfer occupies sender and receiver from start to end, and starts as soon as the sender has executed the
 * block and the receiver is through with the one before, its sending included. The first module starts block 1 at tick 0, and each later
 * block when it is through with the one before; the last module is through with a block when it has executed it. So, with the response
 * B that zombreki_judge answers and the single-block time L, block b ends at (b - 1) * B + L; no entry is above 23,000,000,000.
 * `table` takes n entries; entries after these are never written, and a refusal leaves the table as it came. Bytes of the plan after
 * the 48th are never read. Refusals, in this order: those of zombreki_judge, with its places; 20 (a plan with copies; the place is the
 * first module that has some); 21 (n is not 1 to ZOMBREKI_MOST_BLOCKS, or the table has fewer than n entries). */
struct zombreki_filled zombreki_timetable(const uint8_t *costs, size_t costs_len, const uint8_t *plan, size_t plan_len,
                                          uint32_t n, uint64_t *table, size_t table_len);

#ifdef __cplusplus
}
#endif

#endif
