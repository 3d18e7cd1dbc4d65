/*
 * threads ROUNDS MODEL.. - several threads make every call on the same models at once, so many
 * rounds each, with buffers of their own. Every number, value, counter and buffer must be what the
 * same call gives alone.
 */
#include "calls.h"

#include <pthread.h>

#define THREADS 4
#define LIMIT 200

struct worker {
    pthread_t thread;
    int number;
    long differences;
};

static struct inputs **inputs;
static struct outcome *alone;
static int model_count;
static int rounds;

/* Goes through all models and calls in turn, each thread from another place on. */
static void *work(void *argument)
{
    struct worker *worker = argument;
    struct outcome *outcome = malloc(sizeof *outcome);
    int all = model_count * CALLS;
    int turn;

    if (outcome == NULL)
        fail("no memory", "threads");
    for (turn = 0; turn < rounds * all; turn++) {
        int which = (turn + worker->number) % all;

        make(&calls[which % CALLS], inputs[which / CALLS], 0, outcome);
        worker->differences += memcmp(outcome, &alone[which], sizeof *outcome) != 0;
    }
    free(outcome);
    return NULL;
}

/* Runs all workers at once. Gives the number of calls that differ. */
static long run_workers(void)
{
    struct worker workers[THREADS];
    long differences = 0;
    int i;

    for (i = 0; i < THREADS; i++) {
        workers[i].number = i;
        workers[i].differences = 0;
        if (pthread_create(&workers[i].thread, NULL, work, &workers[i]) != 0)
            fail("no thread", "threads");
    }
    for (i = 0; i < THREADS; i++) {
        pthread_join(workers[i].thread, NULL);
        differences += workers[i].differences;
    }
    return differences;
}

int main(int argc, char **argv)
{
    long differences;
    int i;

    model_count = argc - 2;
    if (model_count < 1)
        fail("no rounds or no models", "threads");
    rounds = atoi(argv[1]);
    inputs = calloc((size_t)model_count, sizeof *inputs);
    alone = calloc((size_t)(model_count * CALLS), sizeof *alone);
    if (inputs == NULL || alone == NULL)
        fail("no memory", "threads");
    for (i = 0; i < model_count; i++)
        inputs[i] = inputs_of(argv[2 + i], LIMIT);
    for (i = 0; i < model_count * CALLS; i++)
        make(&calls[i % CALLS], inputs[i / CALLS], 0, &alone[i]);
    differences = run_workers();
    printf("%d threads at once, %d calls each, all %d calls over %d models: %ld differ from the "
           "calls made alone\n",
           THREADS, rounds * model_count * CALLS, CALLS, model_count, differences);
    for (i = 0; i < model_count; i++)
        free_inputs(inputs[i]);
    free(inputs);
    free(alone);
    return differences != 0;
}
