// Times of StarPU on the calls that bench/boards makes: a task that adds 1 to an element, for each of 64 vectors, so many
// rounds, with one worker. How long a task takes, from the first that is inserted until all have ended.
#include <starpu.h>
#include <stdint.h>
#include <stdio.h>
#include <stdlib.h>
#include <time.h>

#define PARTS 64

static void touch(void *buffers[], void *arguments)
{
    (void)arguments;
    int64_t *x = (int64_t *)STARPU_VECTOR_GET_PTR(buffers[0]);
    x[0] += 1;
}

static struct starpu_codelet codelet = {
    .cpu_funcs = {touch},
    .nbuffers = 1,
    .modes = {STARPU_RW},
};

static double now(void)
{
    struct timespec at;
    clock_gettime(CLOCK_MONOTONIC, &at);
    return at.tv_sec * 1e9 + at.tv_nsec;
}

// Prints how long a task takes where there are so many rounds.
static int measure(int rounds)
{
    int64_t numbers[PARTS] = {0};
    starpu_data_handle_t parts[PARTS];
    for (int c = 0; c < PARTS; c++)
        starpu_vector_data_register(&parts[c], STARPU_MAIN_RAM, (uintptr_t)&numbers[c], 1, sizeof(int64_t));
    double start = now();
    for (int i = 0; i < rounds; i++)
        for (int c = 0; c < PARTS; c++)
            if (starpu_task_insert(&codelet, STARPU_RW, parts[c], 0) != 0)
                return 1;
    starpu_task_wait_for_all();
    double took = now() - start;
    for (int c = 0; c < PARTS; c++)
        starpu_data_unregister(parts[c]);
    for (int c = 0; c < PARTS; c++)
        if (numbers[c] != rounds)
            return 1;
    printf("starpu: %d rounds: %.0f ns a task\n", rounds, took / (rounds * PARTS));
    return 0;
}

int main(int count, char **words)
{
    struct starpu_conf conf;
    starpu_conf_init(&conf);
    conf.ncpus = 1;
    conf.ncuda = 0;
    conf.nopencl = 0;
    if (starpu_init(&conf) != 0)
        return 1;
    int failed = 0;
    for (int i = 1; i < count; i++)
        failed |= measure(atoi(words[i]));
    starpu_shutdown();
    return failed;
}
