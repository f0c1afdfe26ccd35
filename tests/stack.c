/* Bounds the stack that a call of each service takes. Each call runs on a stack of its own, painted beforehand; the lowest
 * byte that is not as painted says how deep it went. What a function that does nothing takes on such a stack is subtracted, so
 * what counts is the call with its arguments and its answer, and all that is called from there.
 *
 * `stack FILE..` plans and judges each of these files of cost records, which have plans and two tasks at least, times the plans,
 * fills in the timetables of the greedy ones, fills in as many records from its first part and laws, and finds the reach of
 * each of its tasks. Prints a line for each service with the most that it took; prints what is wrong and ends with 1. Stacks
 * grow downwards here. */
#define _XOPEN_SOURCE 600
#include <stdio.h>
#include <string.h>
#include <ucontext.h>

#include "costs.h"
#include "zombreki.h"

/* The most bytes that a call may take, and the bytes that are painted: far more. */
#define BOUND 2048
#define ROOM 65536

static struct costs costs;
static uint16_t grouping;
static uint8_t plan[ZOMBREKI_PLAN_BYTES];
static uint32_t work[ZOMBREKI_WORK_WORDS];
static struct zombreki_answer answer;
static struct laws laws;
static uint8_t out[LARGEST];
static struct zombreki_filled filled, reached, timed, tabled;
static uint64_t table[ZOMBREKI_MOST_BLOCKS];
static uint8_t first;
static int failures;

static void do_nothing(void)
{
}

static void call_judge(void)
{
    answer = zombreki_judge(costs.bytes, costs.length, plan, sizeof plan);
}

static void call_greedy(void)
{
    answer = zombreki_greedy_plan(costs.bytes, costs.length, grouping, plan, sizeof plan);
}

static void call_best(void)
{
    answer = zombreki_best_plan(costs.bytes, costs.length, plan, sizeof plan, work, ZOMBREKI_WORK_WORDS);
}

static void call_fill(void)
{
    filled = zombreki_fill_costs(costs.bytes, first_part(&costs), laws.bytes, laws.length, out, sizeof out);
}

static void call_reach(void)
{
    reached = zombreki_reach(costs.bytes, costs.length, first);
}

static void call_time(void)
{
    timed = zombreki_block_time(costs.bytes, costs.length, plan, sizeof plan);
}

static void call_table(void)
{
    tabled = zombreki_timetable(costs.bytes, costs.length, plan, sizeof plan, ZOMBREKI_MOST_BLOCKS, table,
                                ZOMBREKI_MOST_BLOCKS);
}

/* A service, and the most bytes that a call of it took. */
struct service {
    const char *name;
    void (*call)(void);
    size_t most;
};
static struct service judge = {"zombreki_judge", call_judge, 0};
static struct service greedy = {"zombreki_greedy_plan", call_greedy, 0};
static struct service best = {"zombreki_best_plan", call_best, 0};
static struct service fill = {"zombreki_fill_costs", call_fill, 0};
static struct service reach = {"zombreki_reach", call_reach, 0};
static struct service block_time = {"zombreki_block_time", call_time, 0};
static struct service timetable = {"zombreki_timetable", call_table, 0};

/* The bytes from the top of a stack in this paint down to the lowest that the call changed; all of them if it did not run. */
static size_t depth_in(uint8_t paint, void (*call)(void))
{
    static _Alignas(16) uint8_t stack[ROOM];
    static ucontext_t caller, callee;
    size_t kept = 0;
    memset(stack, paint, ROOM);
    if (getcontext(&callee))
        return ROOM;
    callee.uc_stack.ss_sp = stack;
    callee.uc_stack.ss_size = ROOM;
    callee.uc_link = &caller;
    makecontext(&callee, call, 0);
    if (swapcontext(&caller, &callee))
        return ROOM;
    while (kept < ROOM && stack[kept] == paint)
        kept++;
    return ROOM - kept;
}

/* Whatever byte a call writes, it differs from one of the two paints. */
static size_t depth(void (*call)(void))
{
    size_t one = depth_in(0xa5, call), other = depth_in(0x5a, call);
    return one > other ? one : other;
}

/* The first call is on the program's own stack: the dynamic linker looks for `memset` then, and takes stack for that. */
static void measure(struct service *service)
{
    size_t taken;
    service->call();
    taken = depth(service->call) - depth(do_nothing);
    if (taken > service->most)
        service->most = taken;
}

static void expect(const struct service *service, const char *what, int holds)
{
    if (!holds) {
        printf("stack: %s: %s: %s\n", costs.path, service->name, what);
        failures++;
    }
}

/* The service fills in a plan, Judge passes it with the same figures, and a block takes at least as long as in its slowest
 * module. */
static void plans(struct service *service)
{
    struct zombreki_answer planned;
    memset(plan, 255, sizeof plan);
    measure(service);
    planned = answer;
    expect(service, "no plan", planned.refusal == 0 && planned.modules > 0);
    measure(&judge);
    expect(service, "Judge gives other figures", memcmp(&answer, &planned, sizeof answer) == 0);
    measure(&block_time);
    expect(&block_time, "too little time", timed.refusal == 0 && timed.count >= planned.response);
}

/* A greedy plan has no copies: block n ends a single block's time after n - 1 times its slowest module's. */
static void tables(void)
{
    int right = 1;
    plans(&greedy);
    memset(table, 255, sizeof table);
    measure(&timetable);
    for (size_t i = 0; i < ZOMBREKI_MOST_BLOCKS; i++)
        right &= table[i] == (uint64_t)i * answer.response + timed.count;
    expect(&timetable, "another table", tabled.count == ZOMBREKI_MOST_BLOCKS && right);
}

/* As many bytes are filled in as the file has, whose first part says the size. */
static void fills(void)
{
    make_laws(&costs, &laws);
    measure(&fill);
    expect(&fill, "not filled in", filled.refusal == 0 && filled.count == costs.length);
}

/* Each task is within the reach of its own: by itself it fits wherever the plan has it. */
static void reaches(void)
{
    uint8_t tasks = costs.bytes[3] < MOST_TASKS ? costs.bytes[3] : MOST_TASKS;
    for (first = 1; first <= tasks; first++) {
        measure(&reach);
        expect(&reach, "no reach", reached.refusal == 0 && reached.count >= first && reached.count <= tasks);
    }
}

static void bounded(const struct service *service)
{
    printf("stack: %s takes %zu bytes\n", service->name, service->most);
    if (service->most == 0 || service->most > BOUND) {
        printf("stack: %s is to take 1 to %d bytes\n", service->name, BOUND);
        failures++;
    }
}

int main(int argc, char **argv)
{
    for (int i = 1; i < argc; i++) {
        if (!read_costs(argv[i], &costs)) {
            printf("stack: %s: no file of 1 to %d bytes\n", argv[i], LARGEST);
            return 1;
        }
        plans(&best);
        /* all tasks in one module, then task 1 in one of its own, then task 2 too */
        for (grouping = 0; grouping < 2; grouping++)
            tables();
        grouping = 3;
        if (costs.bytes[3] > 2)
            tables();
        fills();
        reaches();
    }
    bounded(&judge);
    bounded(&greedy);
    bounded(&best);
    bounded(&fill);
    bounded(&reach);
    bounded(&block_time);
    bounded(&timetable);
    return failures != 0;
}
