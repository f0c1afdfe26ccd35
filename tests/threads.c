/* Nothing is kept between calls. `threads FILE FILE` asks the services about each of two files of cost records that have
 * plans, the reach of task 1 and a plan's single-block time and timetable included, and to fill in as many records from its
 * first part and laws; then about the first again, then about both at once, a thread to a file with buffers of its own:
 * answers, plan bytes, work area, table and records filled in are always those of the first time. Prints what is wrong and
 * ends with 1, or prints `threads: ok`. */
#include <pthread.h>
#include <stdatomic.h>
#include <string.h>

#include "costs.h"
#include "zombreki.h"

/* How often each file is asked about, at least, beside the other. */
#define ROUNDS 20

/* All that the services give for a file. */
struct given {
    struct zombreki_answer greedy, best, judge;
    struct zombreki_filled filled, reached, timed, tabled;
    uint8_t greedy_plan[ZOMBREKI_PLAN_BYTES], best_plan[ZOMBREKI_PLAN_BYTES], out[LARGEST];
    uint32_t work[ZOMBREKI_WORK_WORDS];
    uint64_t table[ZOMBREKI_MOST_BLOCKS];
};

static struct asked {
    struct costs costs;
    struct laws laws;
    struct given first, now;
    int differs;
} files[2];

static atomic_int unfinished = 2;

/* The plan that is judged, timed and tabled is the greedy one, whose first module is task 1; it has no copies. */
static void ask(struct asked *file)
{
    const struct costs *costs = &file->costs;
    struct given *now = &file->now;
    memset(now, 255, sizeof *now);
    now->greedy = zombreki_greedy_plan(costs->bytes, costs->length, 1, now->greedy_plan, ZOMBREKI_PLAN_BYTES);
    now->best = zombreki_best_plan(costs->bytes, costs->length, now->best_plan, ZOMBREKI_PLAN_BYTES, now->work,
                                   ZOMBREKI_WORK_WORDS);
    now->judge = zombreki_judge(costs->bytes, costs->length, now->greedy_plan, ZOMBREKI_PLAN_BYTES);
    now->filled = zombreki_fill_costs(costs->bytes, first_part(costs), file->laws.bytes, file->laws.length, now->out, LARGEST);
    now->reached = zombreki_reach(costs->bytes, costs->length, 1);
    now->timed = zombreki_block_time(costs->bytes, costs->length, now->greedy_plan, ZOMBREKI_PLAN_BYTES);
    now->tabled = zombreki_timetable(costs->bytes, costs->length, now->greedy_plan, ZOMBREKI_PLAN_BYTES, ZOMBREKI_MOST_BLOCKS,
                                     now->table, ZOMBREKI_MOST_BLOCKS);
    file->differs |= memcmp(&file->first, now, sizeof *now) != 0;
}

/* A thread goes on until both have had their rounds, so that the calls meet. */
static void *ask_often(void *file)
{
    for (int round = 1; round <= ROUNDS || atomic_load(&unfinished) > 0; round++) {
        ask(file);
        if (round == ROUNDS)
            atomic_fetch_sub(&unfinished, 1);
    }
    return NULL;
}

static int ended(const char *how, int status)
{
    printf("threads: %s\n", how);
    return status;
}

int main(int argc, char **argv)
{
    pthread_t threads[2];
    for (int i = 0; i < 2; i++) {
        if (argc != 3 || !read_costs(argv[i + 1], &files[i].costs))
            return ended("usage: threads FILE FILE, files of cost records", 1);
        make_laws(&files[i].costs, &files[i].laws);
        ask(&files[i]);
        memcpy(&files[i].first, &files[i].now, sizeof files[i].now);
        files[i].differs = 0;
        if (files[i].first.greedy.refusal || files[i].first.best.refusal || files[i].first.judge.refusal ||
            files[i].first.filled.refusal || files[i].first.reached.refusal || files[i].first.timed.refusal ||
            files[i].first.tabled.refusal)
            return ended("a service refused a file", 1);
    }
    ask(&files[0]);
    if (files[0].differs)
        return ended("a call differs after calls on another file", 1);
    for (int i = 0; i < 2; i++)
        if (pthread_create(&threads[i], NULL, ask_often, &files[i]))
            return ended("no thread", 1);
    for (int i = 0; i < 2; i++)
        pthread_join(threads[i], NULL);
    if (files[0].differs || files[1].differs)
        return ended("a call differs beside those of another thread", 1);
    return ended("ok", 0);
}
