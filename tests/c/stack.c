/*
 * stack MODEL.. - every call on a thread whose stack has exactly the bytes that the header states
 * for it.
 *
 * The stack and a wide strip below it are painted beforehand. After the call the strip must be as
 * it was painted, so that a call that needs more is found even where it jumps over a page without
 * touching it, and the call must have given what it gives on the main stack. Prints how deep each
 * call went on its deepest model, beyond what a thread needs that makes no call.
 */
#define _POSIX_C_SOURCE 200809L

#include "calls.h"

#include <pthread.h>

#define PAGE 4096
#define STRIP_BYTES (1024 * 1024)
#define PAINT 0xA5
#define LIMIT 50

struct job {
    const struct call *call;
    const struct inputs *in;
    struct outcome *out;
};

/* A strip, then the stack; stacks grow down, towards the strip. */
static uint8_t *painted;

static struct outcome on_thread, on_main;

static size_t stack_of(int c)
{
    return c < CALLS_ON_FILES ? QII_STACK_BYTES : QII_STACK_BYTES_ON_WORDS;
}

static void *run(void *argument)
{
    struct job *job = argument;

    if (job->call != NULL)
        job->call->make(job->in, 0, job->out);
    return NULL;
}

/* The bytes from the lowest one that was changed to the stack's top. */
static size_t depth(size_t stack)
{
    size_t untouched = 0;

    while (untouched < STRIP_BYTES + stack && painted[untouched] == PAINT)
        untouched++;
    return STRIP_BYTES + stack - untouched;
}

/* Makes a call on a thread with the painted stack; none if it is NULL. Gives the depth. */
static size_t run_on_stack(const struct call *call, const struct inputs *in, size_t stack)
{
    struct job job = {call, in, &on_thread};
    pthread_attr_t attributes;
    pthread_t thread;

    memset(&on_thread, OLD, sizeof on_thread);
    memset(painted, PAINT, STRIP_BYTES + stack);
    pthread_attr_init(&attributes);
    if (pthread_attr_setstack(&attributes, painted + STRIP_BYTES, stack) != 0)
        fail("the stack is not taken", "stack");
    if (pthread_create(&thread, &attributes, run, &job) != 0)
        fail("no thread", "stack");
    pthread_join(thread, NULL);
    pthread_attr_destroy(&attributes);
    return depth(stack);
}

/* One call on all models. Gives whether it kept within its stack. */
static int holds(int c, struct inputs **in, int models)
{
    size_t stack = stack_of(c);
    size_t thread = run_on_stack(NULL, NULL, stack);
    size_t deepest = 0;
    int m;

    for (m = 0; m < models; m++) {
        size_t deep = run_on_stack(&calls[c], in[m], stack);

        make(&calls[c], in[m], 0, &on_main);
        if (memcmp(&on_thread, &on_main, sizeof on_main) != 0)
            fail("the thread's call differs from the main stack's", calls[c].name);
        if (deep > deepest)
            deepest = deep;
    }
    printf("%s used %zu bytes on a stack of %zu, and the thread itself %zu\n", calls[c].name,
           deepest - thread, stack, thread);
    return deepest <= stack;
}

int main(int argc, char **argv)
{
    int models = argc - 1;
    struct inputs **in = calloc((size_t)(models + 1), sizeof *in);
    void *memory = NULL;
    int c, m, wrong = 0;

    if (models == 0 || in == NULL ||
        posix_memalign(&memory, PAGE, STRIP_BYTES + QII_STACK_BYTES) != 0)
        fail("no models or no memory", "stack");
    painted = memory;
    for (m = 0; m < models; m++)
        in[m] = inputs_of(argv[1 + m], LIMIT);
    for (c = 0; c < CALLS; c++)
        wrong += !holds(c, in, models);
    printf("%d models, %d calls: %d went below their stack\n", models, CALLS, wrong);
    for (m = 0; m < models; m++)
        free_inputs(in[m]);
    free(in);
    free(painted);
    return wrong != 0;
}
