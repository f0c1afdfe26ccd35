/* A file of cost records, and laws for a chain of its size, for the tests that call the services on several files. */
#ifndef COSTS_H
#define COSTS_H

#include <stddef.h>
#include <stdint.h>
#include <stdio.h>
#include <string.h>

/* The bytes of the largest board, 12 tasks on 32 cores: 12,013 records of 8. */
#define LARGEST 96104

struct costs {
    const char *path;
    size_t length;
    uint8_t bytes[LARGEST];
};

/* Whether the file was read whole; one that is empty or longer than the largest board's is not. */
static int read_costs(const char *path, struct costs *costs)
{
    FILE *file = fopen(path, "rb");
    int whole = 0;
    costs->path = path;
    costs->length = 0;
    if (file) {
        costs->length = fread(costs->bytes, 1, LARGEST, file);
        whole = costs->length > 0 && fgetc(file) == EOF && !ferror(file);
        fclose(file);
    }
    return whole;
}

/* A law for each cost (document 02, M-101), of 24 bytes: 34 for 12 tasks. */
#define LAW 24
#define MOST_TASKS 12
#define MOST_LAWS 34

struct laws {
    size_t length;
    uint8_t bytes[MOST_LAWS * LAW];
};

/* A law with terms for the task's cost of that kind, with 1, 2, 3 and so on as its coefficients. */
static void add_law(struct laws *laws, uint8_t kind, uint8_t task)
{
    uint8_t *record = laws->bytes + laws->length;
    uint8_t coefficients = kind == 5 ? 5 : 3;
    memset(record, 0, LAW);
    record[0] = kind;
    record[1] = task;
    record[2] = kind == 5 ? 2 : 1;
    for (uint8_t i = 1; i <= coefficients; i++)
        record[4 * i] = i;
    laws->length += LAW;
}

/* The laws of a chain that has as many tasks as the file's, 12 at most. */
static void make_laws(const struct costs *costs, struct laws *laws)
{
    uint8_t tasks = costs->bytes[3] < MOST_TASKS ? costs->bytes[3] : MOST_TASKS;
    laws->length = 0;
    for (uint8_t kind = 3; kind <= 5; kind++)
        for (uint8_t task = 1; task <= (kind == 3 ? tasks : tasks - 1); task++)
            add_law(laws, kind, task);
}

/* The bytes of the file's first part, its records of kinds 1 and 2. */
static size_t first_part(const struct costs *costs)
{
    return 8 * (1 + (size_t)costs->bytes[3]);
}

#endif
