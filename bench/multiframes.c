/*
 * Times building and taking apart multiframes of 2048 kbit/s: the library beside plain C, on the same
 * input in the same run, after the two were seen to write the same bytes.
 */
#define _POSIX_C_SOURCE 199309L
#include <stdio.h>
#include <stdlib.h>
#include <string.h>
#include <time.h>

#include "engines.h"
#include "spritbobbin.h"

enum { ENGINES = 2, TASKS = 2, TIMES = 64 };

static const struct engine {
    const char *name;
    build_call *build;
    apart_call *apart;
} engines[ENGINES] = {
    {"library", spritbobbin_multiframe_build, spritbobbin_multiframe_apart},
    {"plain C", plain_multiframe_build, plain_multiframe_apart},
};

static const char *const tasks[TASKS] = {"multiframe, build", "multiframe, apart"};

struct parts {
    uint8_t multiframe[512], channels[480], signalling[15], spare[9];
};

static struct parts input, outputs[ENGINES];
static double best[TASKS][ENGINES];

static uint64_t run(unsigned task, const struct engine *engine, struct parts *output)
{
    uint64_t answer[1];

    if (task == 0)
        return engine->build(output->multiframe, 512, input.channels, 480, input.signalling, 15, input.spare, 9, answer);
    return engine->apart(output->multiframe, 512, output->channels, 480, output->signalling, 15, output->spare, 9);
}

void compare_multiframes(void)
{
    for (unsigned round = 0; round < 1000; round++) {
        uint8_t *bytes = (uint8_t *)&input;

        for (size_t i = 0; i < sizeof input; i++)
            bytes[i] = (uint8_t)(rand() >> 4);
        for (unsigned k = 0; k < 15; k++)
            input.signalling[k] |= 0x10; /* else refused with 11 */
        for (unsigned e = 0; e < ENGINES; e++) {
            memset(&outputs[e], 0xA5, sizeof outputs[e]);
            if (run(0, &engines[e], &outputs[e]) != 0 || run(1, &engines[e], &outputs[e]) != 0
                || memcmp(&outputs[e], &outputs[0], sizeof outputs[e]) != 0
                || memcmp(outputs[e].channels, input.channels, 480) != 0) {
                fprintf(stderr, "bench: %s: another multiframe\n", engines[e].name);
                exit(1);
            }
        }
    }
}

static double now(void)
{
    struct timespec time;

    clock_gettime(CLOCK_MONOTONIC, &time);
    return 1e9 * (double)time.tv_sec + (double)time.tv_nsec;
}

void time_multiframes(void)
{
    for (unsigned task = 0; task < TASKS; task++)
        for (unsigned e = 0; e < ENGINES; e++) {
            double begin = now(), took;

            for (unsigned i = 0; i < TIMES; i++)
                run(task, &engines[e], &outputs[e]);
            took = now() - begin;
            if (best[task][e] == 0 || took < best[task][e])
                best[task][e] = took;
        }
}

void print_multiframes(void)
{
    printf("\n| %-17s |", "");
    for (unsigned e = 0; e < ENGINES; e++)
        printf(" %s, ns a digit | times the rate |", engines[e].name);
    printf("\n|---|---:|---:|---:|---:|\n");
    for (unsigned task = 0; task < TASKS; task++) {
        printf("| %-17s |", tasks[task]);
        for (unsigned e = 0; e < ENGINES; e++) {
            double each = best[task][e] / (TIMES * 4096.0);

            printf(" %19.3f | %14.1f |", each, 1e6 / 2048 / each);
        }
        printf("\n");
    }
}
