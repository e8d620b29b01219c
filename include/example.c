/* A town of 16 by 16 cells, one zone and one car. Build it with
 * cc -Iinclude include/example.c target/boundary/libunwadegiro.a */
#include "unwadegiro.h"

#include <stdio.h>
#include <stdlib.h>

/* k = 2, P = Q = 4; room for 16 zones, 64 cars, 2,048 entries. */
#define SHAPE_AND_ROOM 2, 4, 4, 16, 64, 2048

static int play(unwadegiro_town *town)
{
    uint32_t entered[16], left[16], values[9];

    if (unwadegiro_town_add(town, 1, 5, 2, 8, 12, values, 3) != UNWADEGIRO_DONE)
        return 1;
    printf("zone 1 has %u squares, and %u cars are inside\n", (unsigned)values[0], (unsigned)values[1]);
    if (unwadegiro_town_report(town, 7, 3, 5.5f, 3.0f, entered, 16, left, 16, values, 3) != UNWADEGIRO_DONE)
        return 1;
    printf("car 7 of team 3 entered %u zone, the first is %u\n", (unsigned)values[1], (unsigned)entered[0]);
    if (unwadegiro_town_scoring(town, 5.5f, 3.0f, values, 2) != UNWADEGIRO_DONE)
        return 1;
    printf("its spot scores: %s, %u level looked at\n", values[0] == 1 ? "yes" : "no", (unsigned)values[1]);
    if (unwadegiro_town_count(town, 1, values, 1) != UNWADEGIRO_DONE)
        return 1;
    printf("zone 1 counts %u car\n", (unsigned)values[0]);
    if (unwadegiro_town_holder(town, 1, values, 9) != UNWADEGIRO_DONE)
        return 1;
    printf("team %u holds it, with %u car inside\n", (unsigned)values[8], (unsigned)values[values[8]]);
    return 0;
}

int main(void)
{
    unwadegiro_town town;
    void *block;
    int failed;

    if (unwadegiro_town_lengths(&town, SHAPE_AND_ROOM) != UNWADEGIRO_DONE)
        return 1;
    block = malloc(unwadegiro_town_bytes(&town));
    if (block == NULL)
        return 1;
    unwadegiro_town_place(&town, block);
    failed = unwadegiro_town_open(&town, SHAPE_AND_ROOM) != UNWADEGIRO_DONE || play(&town);
    free(block);
    return failed;
}
