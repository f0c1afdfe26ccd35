/* Calls the services from C on document 01's small dock, given as a file, and on laws for its costs, and checks answers, lent
 * bytes, words and entries, and the layout of the answers. Prints what differs and ends with 1, or prints `calls: ok`. */
#include <stddef.h>
#include <stdio.h>
#include <string.h>

#include "zombreki.h"

_Static_assert(sizeof(struct zombreki_answer) == 28, "seven 32-bit numbers");
_Static_assert(_Alignof(struct zombreki_answer) == 4, "aligned as one of them");
_Static_assert(offsetof(struct zombreki_answer, refusal) == 0, "refusal first");
_Static_assert(offsetof(struct zombreki_answer, place) == 4, "then the place");
_Static_assert(offsetof(struct zombreki_answer, modules) == 8, "then the modules");
_Static_assert(offsetof(struct zombreki_answer, cores) == 12, "then the cores");
_Static_assert(offsetof(struct zombreki_answer, slowest) == 16, "then the slowest module");
_Static_assert(offsetof(struct zombreki_answer, response) == 20, "then its response");
_Static_assert(offsetof(struct zombreki_answer, copies) == 24, "then its copies");

_Static_assert(sizeof(struct zombreki_filled) == 12, "three 32-bit numbers");
_Static_assert(_Alignof(struct zombreki_filled) == 4, "aligned as one of them");
_Static_assert(offsetof(struct zombreki_filled, refusal) == 0, "refusal first");
_Static_assert(offsetof(struct zombreki_filled, place) == 4, "then the place");
_Static_assert(offsetof(struct zombreki_filled, count) == 8, "then the count");

static int failures;

static void expect(const char *what, int holds)
{
    if (!holds) {
        printf("calls: %s\n", what);
        failures++;
    }
}

static int answers(struct zombreki_answer a, const uint32_t words[7])
{
    return a.refusal == words[0] && a.place == words[1] && a.modules == words[2] && a.cores == words[3] &&
           a.slowest == words[4] && a.response == words[5] && a.copies == words[6];
}

/* Whether the plan bytes are these records, zeros up to the 48th byte, and as lent behind it. */
static int holds(const uint8_t *plan, const uint8_t *records, size_t length)
{
    for (size_t i = 0; i < 52; i++) {
        uint8_t due = i < length ? records[i] : i < ZOMBREKI_PLAN_BYTES ? 0 : 255;
        if (plan[i] != due)
            return 0;
    }
    return 1;
}

static int all(const uint32_t *words, size_t count, uint32_t value)
{
    for (size_t i = 0; i < count; i++)
        if (words[i] != value)
            return 0;
    return 1;
}

static void judges(const uint8_t *costs, size_t length)
{
    uint8_t plan[52] = {1, 1, 2, 1, 2, 2, 1, 2};
    expect("judge", answers(zombreki_judge(costs, length, plan, 48), (uint32_t[]){0, 0, 2, 4, 2, 12, 1}));
    plan[7] = 3;
    expect("judge, cores", answers(zombreki_judge(costs, length, plan, 48), (uint32_t[]){15, 0, 0, 0, 0, 0, 0}));
    expect("judge, short", answers(zombreki_judge(costs, length, plan, 47), (uint32_t[]){7, 0, 0, 0, 0, 0, 0}));
    expect("judge, none", answers(zombreki_judge(NULL, 0, NULL, 0), (uint32_t[]){1, 0, 0, 0, 0, 0, 0}));
}

static void plans_greedily(const uint8_t *costs, size_t length)
{
    uint8_t plan[52];
    memset(plan, 255, sizeof plan);
    expect("greedy, grouping 2",
           answers(zombreki_greedy_plan(costs, length, 2, plan, sizeof plan), (uint32_t[]){10, 0, 0, 0, 0, 0, 0}));
    expect("greedy, grouping 2: plan as lent", plan[0] == 255 && plan[47] == 255);
    expect("greedy", answers(zombreki_greedy_plan(costs, length, 1, plan, sizeof plan),
                             (uint32_t[]){0, 0, 2, 4, 2, 12, 1}));
    expect("greedy: plan", holds(plan, (uint8_t[]){1, 1, 1, 2, 2, 2, 1, 2}, 8));
}

static void plans_best(const uint8_t *costs, size_t length)
{
    static uint32_t work[ZOMBREKI_WORK_WORDS + 1];
    uint8_t plan[52];
    memset(plan, 255, sizeof plan);
    memset(work, 255, sizeof work);
    expect("best, 16383 words", answers(zombreki_best_plan(costs, length, plan, sizeof plan, work, ZOMBREKI_WORK_WORDS - 1),
                                        (uint32_t[]){8, 0, 0, 0, 0, 0, 0}));
    expect("best, 16383 words: as lent", plan[0] == 255 && all(work, ZOMBREKI_WORK_WORDS + 1, UINT32_MAX));
    expect("best", answers(zombreki_best_plan(costs, length, plan, sizeof plan, work, ZOMBREKI_WORK_WORDS),
                           (uint32_t[]){0, 0, 1, 4, 1, 18, 2}));
    expect("best: plan", holds(plan, (uint8_t[]){1, 2, 2, 2}, 4));
    expect("best: work", all(work, ZOMBREKI_WORK_WORDS, 0) && work[ZOMBREKI_WORK_WORDS] == UINT32_MAX);
}

/* Document 02, M-100: byte b of a task's record limits the cores of one copy. It is the file's byte 11 for task 1, and 19 for
 * task 2. */
static void keeps_limits(const uint8_t *costs, size_t length)
{
    static uint32_t work[ZOMBREKI_WORK_WORDS];
    uint8_t limited[248];
    uint8_t plan[52] = {1, 1, 2, 1, 2, 2, 1, 3};
    memcpy(limited, costs, sizeof limited);
    limited[19] = 2;
    expect("judge, limit", answers(zombreki_judge(limited, length, plan, 48), (uint32_t[]){16, 2, 0, 0, 0, 0, 0}));
    limited[11] = 1;
    memset(plan, 255, sizeof plan);
    expect("best, limits", answers(zombreki_best_plan(limited, length, plan, sizeof plan, work, ZOMBREKI_WORK_WORDS),
                                   (uint32_t[]){0, 0, 2, 4, 2, 12, 1}));
    expect("best, limits: plan", holds(plan, (uint8_t[]){1, 1, 2, 1, 2, 2, 1, 2}, 8));
}

/* Both tasks in one module need two cores, more than limit 1. Apart they start at limits 1 and 2. One module gets one core more
 * up to limit 3. */
static void walks_to_limits(const uint8_t *costs, size_t length)
{
    uint8_t limited[248];
    uint8_t plan[52];
    memcpy(limited, costs, sizeof limited);
    memset(plan, 255, sizeof plan);
    limited[11] = 1;
    limited[19] = 2;
    expect("greedy, limit too low",
           answers(zombreki_greedy_plan(limited, length, 0, plan, sizeof plan), (uint32_t[]){11, 0, 0, 0, 0, 0, 0}));
    expect("greedy, limit too low: plan as lent", plan[0] == 255 && plan[47] == 255);
    expect("greedy, limits 1 and 2",
           answers(zombreki_greedy_plan(limited, length, 1, plan, sizeof plan), (uint32_t[]){0, 0, 2, 3, 1, 14, 1}));
    expect("greedy, limits 1 and 2: plan", holds(plan, (uint8_t[]){1, 1, 1, 1, 2, 2, 1, 2}, 8));
    limited[11] = 3;
    limited[19] = 0;
    expect("greedy, limit 3",
           answers(zombreki_greedy_plan(limited, length, 0, plan, sizeof plan), (uint32_t[]){0, 0, 1, 3, 1, 14, 1}));
    expect("greedy, limit 3: plan", holds(plan, (uint8_t[]){1, 2, 1, 3}, 4));
}

/* Document 02, M-101. The small dock's execution of task 1 is 1 + 11 / p. That of task 2 follows no law: 20 / p is 7 and 5 at
 * three and four cores, where the dock has 8 and 6. Its transfers are constants. */
static const uint8_t dock_laws[4][24] = {
    {3, 1, 1, 0, 1, 0, 0, 0, 11},
    {3, 2, 1, 0, 0, 0, 0, 0, 20},
    {4, 1, 0, 0, 1},
    {5, 1, 0, 0, 2},
};

static int fills(struct zombreki_filled f, uint32_t refusal, uint32_t place, uint32_t count)
{
    return f.refusal == refusal && f.place == place && f.count == count;
}

/* What is filled in, byte by byte, and 255 behind it; then the best plan on it. The value of task 2's execution at three cores is
 * the file's byte 76, and at four cores 84. */
static void fills_costs(const uint8_t *costs)
{
    static uint32_t work[ZOMBREKI_WORK_WORDS];
    uint8_t head[24], laws[4][24], out[252], due[252], plan[52];
    memcpy(head, costs, sizeof head);
    memcpy(laws, dock_laws, sizeof laws);
    memset(out, 255, sizeof out);
    memset(due, 255, sizeof due);
    memcpy(due, costs, 248);
    due[76] = 7;
    due[84] = 5;
    expect("fill", fills(zombreki_fill_costs(head, sizeof head, laws[0], sizeof laws, out, sizeof out), 0, 0, 248));
    expect("fill: records", memcmp(out, due, sizeof due) == 0);
    expect("fill: first part as lent", memcmp(head, costs, sizeof head) == 0);
    expect("fill: laws as lent", memcmp(laws, dock_laws, sizeof laws) == 0);
    memset(plan, 255, sizeof plan);
    expect("best, filled in", answers(zombreki_best_plan(out, 248, plan, sizeof plan, work, ZOMBREKI_WORK_WORDS),
                                      (uint32_t[]){0, 0, 1, 4, 1, 18, 2}));
    expect("best, filled in: plan", holds(plan, (uint8_t[]){1, 2, 2, 2}, 4));
}

/* Five terms on two cores: 1 + 3 / s + 5 / q + 2 s + 7 q. The other laws are constants of 0. */
static void fills_five_terms(const uint8_t *costs)
{
    uint8_t laws[4][24] = {{3, 1}, {3, 2}, {4, 1}, {5, 1, 2, 0, 1, 0, 0, 0, 3, 0, 0, 0, 5, 0, 0, 0, 2, 0, 0, 0, 7}};
    uint8_t external[4][8] = {{5, 1, 1, 1, 18}, {5, 1, 1, 2, 23}, {5, 1, 2, 1, 19}, {5, 1, 2, 2, 24}};
    uint8_t head[24], out[104] = {0};
    memcpy(head, costs, sizeof head);
    head[2] = 2;
    expect("fill, five terms", fills(zombreki_fill_costs(head, 24, laws[0], sizeof laws, out, sizeof out), 0, 0, 104));
    expect("fill, five terms: records", memcmp(out + 72, external, sizeof external) == 0);
}

/* What is lent to fill costs, but for the output itself. */
struct lent {
    const uint8_t *head;
    size_t head_len;
    const uint8_t *laws;
    size_t laws_len, out_len;
};

/* The refusal has count 0, and the output stays as lent. */
static void refuses(const char *what, struct lent lent, uint32_t refusal, uint32_t place)
{
    uint8_t out[252], held[252];
    memset(out, 255, sizeof out);
    memset(held, 255, sizeof held);
    expect(what, fills(zombreki_fill_costs(lent.head, lent.head_len, lent.laws, lent.laws_len, out, lent.out_len), refusal,
                       place, 0));
    expect(what, memcmp(out, held, sizeof out) == 0);
}

static void refuses_laws(const uint8_t *costs)
{
    const uint8_t *right = dock_laws[0];
    uint8_t head[24], laws[4][24];
    memcpy(head, costs, sizeof head);
    memcpy(laws, dock_laws, sizeof laws);
    refuses("fill, no first part", (struct lent){NULL, 0, right, 96, 248}, 1, 0);
    refuses("fill, whole file as first part", (struct lent){costs, 248, right, 96, 248}, 4, 0);
    refuses("fill, no laws", (struct lent){costs, 24, NULL, 0, 248}, 17, 0);
    refuses("fill, laws a byte short", (struct lent){costs, 24, right, 95, 248}, 17, 0);
    refuses("fill, output a byte short", (struct lent){costs, 24, right, 96, 247}, 19, 0);
    head[19] = 33;
    refuses("fill, limit above 32", (struct lent){head, 24, right, 96, 248}, 6, 3);
    laws[3][2] = 1;
    refuses("fill, three terms outside", (struct lent){costs, 24, laws[0], 96, 248}, 17, 0);
    laws[3][2] = 0;
    memcpy(&laws[3][4], (uint8_t[]){0x41, 0x42, 0x0f, 0}, 4); /* 1,000,001 */
    refuses("fill, a value above", (struct lent){costs, 24, laws[0], 96, 247}, 18, 0);
    expect("fill, no output", fills(zombreki_fill_costs(costs, 24, right, 96, NULL, 0), 19, 0, 0));
    expect("fill, none", fills(zombreki_fill_costs(NULL, 0, NULL, 0, NULL, 0), 1, 0, 0));
}

/* Document 02, M-102: the last task of the longest module that the dock's four cores hold. Byte 4 of the file is the capacity: 49
 * for each core is too little for both tasks, whose shares are 13 and 38. Byte 19 is the limit of task 2, whose record is the
 * third. */
static void finds_reaches(const uint8_t *costs, size_t length)
{
    uint8_t changed[248];
    memcpy(changed, costs, sizeof changed);
    expect("reach of task 0", fills(zombreki_reach(costs, length, 0), 0, 0, 0));
    expect("reach of task 1", fills(zombreki_reach(costs, length, 1), 0, 0, 2));
    expect("reach of task 2", fills(zombreki_reach(costs, length, 2), 0, 0, 2));
    expect("reach of task 3", fills(zombreki_reach(costs, length, 3), 0, 0, 0));
    expect("reach of task 255", fills(zombreki_reach(costs, length, 255), 0, 0, 0));
    changed[4] = 49;
    expect("reach, capacity 49", fills(zombreki_reach(changed, length, 1), 0, 0, 1));
    changed[19] = 33;
    expect("reach, limit above 32", fills(zombreki_reach(changed, length, 1), 6, 3, 0));
    expect("reach, a record short", fills(zombreki_reach(costs, length - 8, 1), 4, 0, 0));
    expect("reach, none", fills(zombreki_reach(NULL, 0, 1), 1, 0, 0));
}

/* Document 02, M-103: needs 5 and 5, bytes 12 and 20, with capacity 5. On two cores the shares are 3 and 3, on three 2 and 2, and
 * on 255 one each. */
static void judges_shares(const uint8_t *costs, size_t length)
{
    uint8_t even[248];
    uint8_t plan[48] = {1, 2, 1, 2};
    memcpy(even, costs, sizeof even);
    even[4] = even[12] = even[20] = 5;
    expect("judge, 3 + 3 of 5", answers(zombreki_judge(even, length, plan, 48), (uint32_t[]){14, 1, 0, 0, 0, 0, 0}));
    plan[3] = 3;
    expect("judge, 2 + 2 of 5", answers(zombreki_judge(even, length, plan, 48), (uint32_t[]){0, 0, 1, 3, 1, 14, 1}));
    plan[3] = 255;
    expect("judge, 1 + 1 of 5", answers(zombreki_judge(even, length, plan, 48), (uint32_t[]){15, 0, 0, 0, 0, 0, 0}));
    even[4] = 1;
    expect("judge, 1 + 1 of 1", answers(zombreki_judge(even, length, plan, 48), (uint32_t[]){14, 1, 0, 0, 0, 0, 0}));
}

/* With capacity 50 both tasks fit at no count of the dock's cores: the shares of 50 and 150 are 13 and 38 on all four. */
static void plans_by_shares(const uint8_t *costs, size_t length)
{
    static uint32_t work[ZOMBREKI_WORK_WORDS];
    uint8_t narrow[248];
    uint8_t plan[52];
    memcpy(narrow, costs, sizeof narrow);
    narrow[4] = 50;
    memset(plan, 255, sizeof plan);
    expect("greedy, capacity 50",
           answers(zombreki_greedy_plan(narrow, length, 0, plan, sizeof plan), (uint32_t[]){11, 0, 0, 0, 0, 0, 0}));
    expect("greedy, capacity 50: plan as lent", plan[0] == 255 && plan[47] == 255);
    expect("best, capacity 50", answers(zombreki_best_plan(narrow, length, plan, sizeof plan, work, ZOMBREKI_WORK_WORDS),
                                        (uint32_t[]){0, 0, 2, 4, 1, 14, 1}));
    expect("best, capacity 50: plan", holds(plan, (uint8_t[]){1, 1, 1, 1, 2, 2, 1, 3}, 8));
    expect("reach, capacity 50", fills(zombreki_reach(narrow, length, 1), 0, 0, 1));
    narrow[4] = 51;
    expect("reach, capacity 51", fills(zombreki_reach(narrow, length, 1), 0, 0, 2));
}

/* Document 02, M-104: each execution and each transfer once, at the cores of one copy. Byte 10 is the flag of task 1, byte 19 the
 * limit of task 2, whose record is the third. What is lent is only read. */
static void times_blocks(const uint8_t *costs, size_t length)
{
    uint8_t changed[248];
    uint8_t plan[52] = {1, 2, 2, 2};
    uint8_t held[52];
    memset(plan + 48, 255, 4);
    memcpy(held, plan, sizeof held);
    memcpy(changed, costs, sizeof changed);
    expect("time, 7 + 1 + 10", fills(zombreki_block_time(changed, length, plan, sizeof plan), 0, 0, 18));
    expect("time: plan as lent", memcmp(plan, held, sizeof held) == 0);
    expect("time: costs as lent", memcmp(changed, costs, sizeof changed) == 0);
    plan[2] = 1;
    expect("time, one copy", fills(zombreki_block_time(costs, length, plan, 48), 0, 0, 18));
    plan[3] = 4;
    expect("time, 4 + 1 + 6", fills(zombreki_block_time(costs, length, plan, 48), 0, 0, 11));
    memcpy(plan, (uint8_t[]){1, 1, 2, 1, 2, 2, 1, 2}, 8);
    expect("time, 12 + 2 + 10", fills(zombreki_block_time(costs, length, plan, 48), 0, 0, 24));
    expect("time, short", fills(zombreki_block_time(costs, length, plan, 47), 7, 0, 0));
    expect("time, no plan", fills(zombreki_block_time(costs, length, NULL, 0), 7, 0, 0));
    changed[10] = 0;
    expect("time, copies", fills(zombreki_block_time(changed, length, plan, 48), 13, 1, 0));
    changed[10] = costs[10];
    expect("time, blank", fills(zombreki_block_time(costs, length, (uint8_t[48]){0}, 48), 12, 1, 0));
    expect("time, memory", fills(zombreki_block_time(costs, length, (uint8_t[48]){1, 2, 1, 1}, 48), 14, 1, 0));
    plan[7] = 3;
    expect("time, cores", fills(zombreki_block_time(costs, length, plan, 48), 15, 0, 0));
    changed[19] = 2;
    expect("time, limit", fills(zombreki_block_time(changed, length, plan, 48), 16, 2, 0));
    changed[19] = 33;
    expect("time, limit above 32", fills(zombreki_block_time(changed, length, plan, 48), 6, 3, 0));
    expect("time, a record short", fills(zombreki_block_time(costs, length - 8, plan, 48), 4, 0, 0));
    expect("time, none", fills(zombreki_block_time(NULL, 0, NULL, 0), 1, 0, 0));
}

/* Task 1 is not replicable, byte 10, and a core holds task 2, byte 4. Then 1 1 1 2, 2 2 2 1 has the bottleneck 22 / 2 and
 * 1 2 1 4 has 11, both on four cores, and no plan has a lesser one. The first in module order takes 7 + 2 + 20, the other
 * 4 + 1 + 6. */
static void plans_by_time(const uint8_t *costs, size_t length)
{
    static uint32_t work[ZOMBREKI_WORK_WORDS];
    uint8_t changed[248];
    uint8_t plan[52] = {1, 1, 1, 2, 2, 2, 2, 1};
    memcpy(changed, costs, sizeof changed);
    changed[4] = 150;
    changed[10] = 0;
    expect("judge, 22 / 2", answers(zombreki_judge(changed, length, plan, 48), (uint32_t[]){0, 0, 2, 4, 2, 22, 2}));
    expect("time, 7 + 2 + 20", fills(zombreki_block_time(changed, length, plan, 48), 0, 0, 29));
    memset(plan, 255, sizeof plan);
    expect("best, by time", answers(zombreki_best_plan(changed, length, plan, sizeof plan, work, ZOMBREKI_WORK_WORDS),
                                    (uint32_t[]){0, 0, 1, 4, 1, 11, 1}));
    expect("best, by time: plan", holds(plan, (uint8_t[]){1, 2, 1, 4}, 4));
    expect("best, by time: time", fills(zombreki_block_time(changed, length, plan, sizeof plan), 0, 0, 11));
}

/* Whether the table is these entries, and as lent behind them. */
static int tabled(const uint64_t *table, size_t length, const uint64_t *entries, size_t count)
{
    for (size_t i = 0; i < length; i++)
        if (table[i] != (i < count ? entries[i] : UINT64_MAX))
            return 0;
    return 1;
}

/* Document 02, M-105: module 1 executes 7 and sends 2, module 2 executes 10. So block 1 ends at 7 + 2 + 10; module 1 has executed
 * each later block before module 2 is through with the one before, which then takes 2 + 10 for each. On one core module 1 executes
 * 12, and takes 12 + 2 for each. */
static void fills_tables(const uint8_t *costs, size_t length)
{
    uint64_t table[7];
    uint8_t plan[52] = {1, 1, 1, 2, 2, 2, 1, 2};
    memset(table, 255, sizeof table);
    memset(plan + 48, 255, 4);
    expect("table, five blocks", fills(zombreki_timetable(costs, length, plan, sizeof plan, 5, table, 7), 0, 0, 5));
    expect("table: entries", tabled(table, 7, (uint64_t[]){19, 31, 43, 55, 67}, 5));
    memset(table, 255, sizeof table);
    expect("table, just enough", fills(zombreki_timetable(costs, length, plan, 48, 2, table, 2), 0, 0, 2));
    expect("table, just enough: entries", tabled(table, 7, (uint64_t[]){19, 31}, 2));
    plan[3] = 1;
    memset(table, 255, sizeof table);
    expect("table, a slower module 1", fills(zombreki_timetable(costs, length, plan, 48, 3, table, 7), 0, 0, 3));
    expect("table, a slower module 1: entries", tabled(table, 7, (uint64_t[]){24, 38, 52}, 3));
}

/* Byte 10 is the flag of task 1, byte 20 the need of task 2. */
static void refuses_tables(const uint8_t *costs, size_t length)
{
    uint64_t table[7];
    uint8_t changed[248];
    uint8_t plan[48] = {1, 1, 1, 2, 2, 2, 1, 2};
    memset(table, 255, sizeof table);
    memcpy(changed, costs, sizeof changed);
    expect("table, one short", fills(zombreki_timetable(costs, length, plan, 48, 3, table, 2), 21, 0, 0));
    expect("table, no block", fills(zombreki_timetable(costs, length, plan, 48, 0, table, 7), 21, 0, 0));
    expect("table, no entry", fills(zombreki_timetable(costs, length, plan, 48, 1, NULL, 0), 21, 0, 0));
    expect("table, short plan", fills(zombreki_timetable(costs, length, plan, 47, 0, table, 7), 7, 0, 0));
    changed[20] = 100;
    memcpy(plan, (uint8_t[]){1, 1, 1, 1, 2, 2, 2, 1}, 8);
    expect("table, copies of module 2", fills(zombreki_timetable(changed, length, plan, 48, 1, table, 7), 20, 2, 0));
    memcpy(plan, (uint8_t[]){1, 1, 2, 1, 2, 2, 1, 2}, 8);
    expect("table, copies", fills(zombreki_timetable(costs, length, plan, 48, 0, table, 7), 20, 1, 0));
    changed[10] = 0;
    expect("table, copies not allowed", fills(zombreki_timetable(changed, length, plan, 48, 5, table, 7), 13, 1, 0));
    expect("table, none", fills(zombreki_timetable(NULL, 0, NULL, 0, 0, NULL, 0), 1, 0, 0));
    expect("table: as lent in refusals", tabled(table, 7, NULL, 0));
}

/* One module of four cores takes 4 + 1 + 6 for each block. */
static void fills_long_tables(const uint8_t *costs, size_t length)
{
    const uint32_t most = ZOMBREKI_MOST_BLOCKS;
    static uint64_t table[ZOMBREKI_MOST_BLOCKS + 1];
    uint8_t plan[48] = {1, 2, 1, 4};
    int even = 1;
    memset(table, 255, sizeof table);
    expect("table, too many blocks", fills(zombreki_timetable(costs, length, plan, 48, most + 1, table, most + 1), 21, 0, 0));
    expect("table, too many blocks: as lent", tabled(table, most + 1, NULL, 0));
    expect("table, the most blocks", fills(zombreki_timetable(costs, length, plan, 48, most, table, most + 1), 0, 0, most));
    for (size_t i = 0; i < most; i++)
        even &= table[i] == 11 * (i + 1);
    expect("table, the most blocks: entries", even && table[most] == UINT64_MAX);
}

/* Document 02, M-106: byte 1 of the file is D, what handing out to copies costs. Both tasks on two copies of two cores take 18 + D, so at
 * D = 3 the bottleneck is 21 / 2, at 4 it is 22 / 2; one copy of four cores takes 11, for a block too. */
static void hands_out(const uint8_t *costs, size_t length)
{
    static uint32_t work[ZOMBREKI_WORK_WORDS];
    const struct {
        uint8_t d, copies, cores;
        uint32_t response;
    } best[] = {{0, 2, 2, 18}, {1, 2, 2, 19}, {3, 2, 2, 21}, {4, 1, 4, 11}, {10, 1, 4, 11}, {255, 1, 4, 11}};
    uint8_t changed[248], plan[52];
    uint64_t table[1];
    memcpy(changed, costs, sizeof changed);
    for (size_t i = 0; i < sizeof best / sizeof *best; i++) {
        changed[1] = best[i].d;
        memset(plan, 255, sizeof plan);
        expect("best, D", answers(zombreki_best_plan(changed, length, plan, sizeof plan, work, ZOMBREKI_WORK_WORDS),
                                  (uint32_t[]){0, 0, 1, 4, 1, best[i].response, best[i].copies}));
        expect("best, D: plan", holds(plan, (uint8_t[]){1, 2, best[i].copies, best[i].cores}, 4));
    }
    changed[1] = 10;
    memset(plan, 0, sizeof plan);
    memcpy(plan, (uint8_t[]){1, 2, 2, 2}, 4);
    expect("judge, 28 / 2", answers(zombreki_judge(changed, length, plan, 48), (uint32_t[]){0, 0, 1, 4, 1, 28, 2}));
    expect("time, 18 + 10", fills(zombreki_block_time(changed, length, plan, 48), 0, 0, 28));
    memcpy(plan, (uint8_t[]){1, 1, 2, 1, 2, 2, 1, 2}, 8);
    expect("judge, 24 / 2", answers(zombreki_judge(changed, length, plan, 48), (uint32_t[]){0, 0, 2, 4, 1, 24, 2}));
    expect("time, 24 + 10", fills(zombreki_block_time(changed, length, plan, 48), 0, 0, 34));
    expect("reach, D", fills(zombreki_reach(changed, length, 1), 0, 0, 2));
    expect("table, D and copies", fills(zombreki_timetable(changed, length, plan, 48, 1, NULL, 0), 20, 1, 0));
    expect("greedy, D", answers(zombreki_greedy_plan(changed, length, 1, plan, 48), (uint32_t[]){0, 0, 2, 4, 2, 12, 1}));
    expect("table, D", fills(zombreki_timetable(changed, length, plan, 48, 1, table, 1), 0, 0, 1) && table[0] == 19);
    changed[0] = 2;
    expect("judge, D and another kind", answers(zombreki_judge(changed, length, plan, 48), (uint32_t[]){2, 0, 0, 0, 0, 0, 0}));
}

/* The first part's D goes with it: filled in, one copy of four cores takes 4 + 1 + 5, two copies of two 28 / 2. */
static void fills_hand_out(const uint8_t *costs)
{
    static uint32_t work[ZOMBREKI_WORK_WORDS];
    uint8_t head[24], out[248], plan[52];
    memcpy(head, costs, sizeof head);
    head[1] = 10;
    expect("fill, D", fills(zombreki_fill_costs(head, 24, dock_laws[0], 96, out, sizeof out), 0, 0, 248));
    expect("fill, D: first part", memcmp(out, head, sizeof head) == 0);
    memset(plan, 255, sizeof plan);
    expect("best, D filled in", answers(zombreki_best_plan(out, 248, plan, sizeof plan, work, ZOMBREKI_WORK_WORDS),
                                        (uint32_t[]){0, 0, 1, 4, 1, 10, 1}));
    expect("best, D filled in: plan", holds(plan, (uint8_t[]){1, 2, 1, 4}, 4));
}

int main(int argc, char **argv)
{
    uint8_t costs[249];
    FILE *file = argc == 2 ? fopen(argv[1], "rb") : NULL;
    size_t length = file ? fread(costs, 1, sizeof costs, file) : 0;
    if (file)
        fclose(file);
    expect("usage: calls FILE, the small dock's 248 bytes", length == 248);
    if (failures)
        return 1;
    judges(costs, length);
    plans_greedily(costs, length);
    plans_best(costs, length);
    keeps_limits(costs, length);
    walks_to_limits(costs, length);
    fills_costs(costs);
    fills_five_terms(costs);
    refuses_laws(costs);
    finds_reaches(costs, length);
    judges_shares(costs, length);
    plans_by_shares(costs, length);
    times_blocks(costs, length);
    plans_by_time(costs, length);
    fills_tables(costs, length);
    refuses_tables(costs, length);
    fills_long_tables(costs, length);
    hands_out(costs, length);
    fills_hand_out(costs);
    if (failures)
        return 1;
    puts("calls: ok");
    return 0;
}
