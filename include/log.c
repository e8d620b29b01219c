/* Answers a log from standard input, as the log program does, and says on standard error how many cars each zone has at the
 * end. Build it with
 * cc -Iinclude include/log.c target/boundary/libunwadegiro.a */
#include "unwadegiro.h"

#include <stdio.h>
#include <stdlib.h>

static uint8_t held[UNWADEGIRO_LOG_HELD], piece[4096], out[4096];

/* The answers, on standard output. */
static int answer(unwadegiro_town *log)
{
    size_t values[2], got, at;

    while ((got = fread(piece, 1, sizeof piece, stdin)) > 0)
        for (at = 0; at < got; at += values[0]) {
            if (unwadegiro_town_log(log, piece + at, got - at, held, sizeof held, out, sizeof out, values, 2) !=
                UNWADEGIRO_DONE)
                return 1;
            if (fwrite(out, 1, values[1], stdout) != values[1])
                return 1;
        }
    if (ferror(stdin))
        return 1;
    if (unwadegiro_town_log_end(log, held, sizeof held, out, sizeof out, values, 2) != UNWADEGIRO_DONE)
        return 1;
    return fwrite(out, 1, values[1], stdout) != values[1] || fflush(stdout) != 0;
}

/* The count of each zone that stands. */
static void count(const unwadegiro_town *log)
{
    unwadegiro_town town;
    uint32_t zone, cars;

    if (unwadegiro_town_of_log(&town, log) != UNWADEGIRO_DONE)
        return;
    for (zone = 0; zone < UNWADEGIRO_MAX_ZONES; zone++)
        if (unwadegiro_town_count(&town, zone, &cars, 1) == UNWADEGIRO_DONE)
            fprintf(stderr, "cars in zone %u: %u\n", (unsigned)zone, (unsigned)cars);
}

int main(void)
{
    unwadegiro_town log;
    void *block;
    int failed;

    unwadegiro_town_log_lengths(&log);
    block = calloc(1, unwadegiro_town_bytes(&log));
    if (block == NULL)
        return 1;
    unwadegiro_town_place(&log, block);
    failed = answer(&log);
    if (!failed)
        count(&log);
    free(block);
    return failed;
}
