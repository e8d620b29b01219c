/* Holds the inline functions of unwadegiro.h to the calls beneath: random calls on a placed town and on tables of their own,
 * and the same numbers, values, buffers and tables. */
#include "unwadegiro.h"

#include <stdio.h>
#include <stdlib.h>
#include <string.h>

#define SHAPE_AND_ROOM 2, 4, 4, 16, 63, 400

static uint32_t head[6], zones[64], cars[63], starts[337], entries[400], tallies[160];
static float spots[126];
static uint8_t rosters[16 * 63];

#define TABLES                                                                                                         \
    head, 6, zones, 64, cars, 63, spots, 126, starts, 337, entries, 400, rosters, 16 * 63, tallies, 160

static uint32_t seed = 1;

static uint32_t below(uint32_t n)
{
    seed = seed * 1664525u + 1013904223u;
    return (seed >> 8) % n;
}

static void must(int yes, const char *what)
{
    if (!yes) {
        printf("header: %s\n", what);
        exit(1);
    }
}

static void same(const unwadegiro_town *town)
{
    must(memcmp(town->head, head, sizeof head) == 0 && memcmp(town->zones, zones, sizeof zones) == 0, "head, zones");
    must(memcmp(town->cars, cars, sizeof cars) == 0 && memcmp(town->spots, spots, sizeof spots) == 0, "cars, spots");
    must(memcmp(town->starts, starts, sizeof starts) == 0, "starts");
    must(memcmp(town->entries, entries, sizeof entries) == 0, "entries");
    must(memcmp(town->rosters, rosters, sizeof rosters) == 0, "rosters");
    must(memcmp(town->tallies, tallies, sizeof tallies) == 0, "tallies");
}

/* One random call, made both ways. */
static void turn(unwadegiro_town *town, uint32_t *seen)
{
    uint32_t a[64], b[64], c[64], d[64], v[10], w[10], sought[2], zones16[16], r = 0, s = 0;
    uint32_t zone = below(17), car = below(65), n = below(4), kind = below(23);
    uint32_t team = below(8) == 0 ? below(10) : car % 8;
    float p[2] = {9, 9}, q[2] = {9, 9}, x = (float)below(68) / 4, y = (float)below(68) / 4;
    uint32_t e = below(14), f = below(14), g = 1 + below(6), h = 1 + below(6);
    size_t room = below(8) == 0 ? 15 : 16, list = below(8) == 0 ? 62 : 63;

    memset(a, 7, sizeof a), memset(b, 7, sizeof b), memset(c, 7, sizeof c), memset(d, 7, sizeof d);
    memset(v, 9, sizeof v), memset(w, 9, sizeof w);
    switch (kind) {
    case 0:
        e = below(3), n = below(40) == 0 ? 16 : 15 + 2 * below(2);
        r = unwadegiro_open(TABLES, 2, 4, 4, n, 63, 400 + e * 10000);
        s = unwadegiro_town_open(town, 2, 4, 4, n, 63, 400 + e * 10000);
        break;
    case 1: case 2: case 3:
        r = unwadegiro_add(TABLES, zone, e, f, g, h, v, n);
        s = unwadegiro_town_add(town, zone, e, f, g, h, w, n);
        break;
    case 4:
        r = unwadegiro_remove(TABLES, zone);
        s = unwadegiro_town_remove(town, zone);
        break;
    case 5:
        r = unwadegiro_leave(TABLES, car, a, room, v, n);
        s = unwadegiro_town_leave(town, car, b, room, w, n);
        break;
    case 6:
        r = unwadegiro_search(TABLES, x, y, a, room, v, n);
        s = unwadegiro_town_search(town, x, y, b, room, w, n);
        break;
    case 7:
        r = unwadegiro_roster(TABLES, zone, a, list, v, n);
        s = unwadegiro_town_roster(town, zone, b, list, w, n);
        break;
    case 8:
        r = unwadegiro_count(TABLES, zone, v, n);
        s = unwadegiro_town_count(town, zone, w, n);
        break;
    case 9:
        r = unwadegiro_where(TABLES, car, p, n < 3 ? n : 2);
        s = unwadegiro_town_where(town, car, q, n < 3 ? n : 2);
        break;
    case 10:
        r = unwadegiro_sound(TABLES, v, n);
        s = unwadegiro_town_sound(town, w, n);
        must(r != 0 || n == 0 || v[0] == 1, "a sound town");
        break;
    case 11:
        n = below(11);
        r = unwadegiro_holder(TABLES, zone, v, n);
        s = unwadegiro_town_holder(town, zone, w, n);
        break;
    case 12:
        r = unwadegiro_scoring(TABLES, x, y, v, n);
        s = unwadegiro_town_scoring(town, x, y, w, n);
        if (r == 0 && n > 1) {
            must(unwadegiro_town_search(town, x, y, zones16, 16, sought, 2) == 0, "a search there");
            must(v[0] == (sought[1] > 0 ? 1u : 0u) && v[1] >= 1 && v[1] <= 3, "yes where a search finds a zone");
        }
        break;
    case 13: case 14:
        kind = 13;
        r = unwadegiro_ride(TABLES, zone, (int32_t)g - 3, 3 - (int32_t)h, a, list, c, list, v, n);
        s = unwadegiro_town_ride(town, zone, (int32_t)g - 3, 3 - (int32_t)h, b, list, d, list, w, n);
        break;
    default:
        kind = 14;
        r = unwadegiro_report(TABLES, car, team, x, y, a, room, c, room, v, n);
        s = unwadegiro_town_report(town, car, team, x, y, b, room, d, room, w, n);
        seen[15] += r == UNWADEGIRO_WRONG_TEAM;
    }
    must(r == s && memcmp(v, w, sizeof v) == 0 && memcmp(p, q, sizeof p) == 0, "answer");
    must(memcmp(a, b, sizeof a) == 0 && memcmp(c, d, sizeof c) == 0, "buffers");
    seen[kind] += r == 0;
    same(town);
}

static void log_town(void)
{
    static const char lines[] = "M\t2\t4\t4\nA\t1\t5\t2\t8\t12\nP\t7\t40B00000\t40400000\nR\t1";
    static const char again[] = "P\t9\t40B00000\t40400000\n";
    static const uint32_t standing[9] = {1, 0, 0, 1, 0, 0, 0, 0, 3};
    uint8_t held[UNWADEGIRO_LOG_HELD], out[UNWADEGIRO_LOG_OUT];
    unwadegiro_town log, town;
    uint32_t v[9], came[16], went[16];
    size_t told[2], at;
    void *block;

    memset(held, 0, sizeof held);
    unwadegiro_town_log_lengths(&log);
    must(log.head == NULL && log.tallies == NULL && log.tallies_len == 160, "a log's lengths");
    block = calloc(1, unwadegiro_town_bytes(&log));
    must(block != NULL, "memory");
    unwadegiro_town_place(&log, block);
    must(unwadegiro_town_of_log(&town, &log) == UNWADEGIRO_BAD_TABLES, "no town is open");
    for (at = 0; at < sizeof lines - 1; at += told[0])
        must(unwadegiro_town_log(&log, (const uint8_t *)lines + at, sizeof lines - 1 - at, held, sizeof held, out,
                                 sizeof out, told, 2) == 0,
             "a piece");
    must(unwadegiro_town_of_log(&town, &log) == 0 && town.starts_len == 337, "the open town");
    must(unwadegiro_town_count(&town, 1, v, 1) == 0 && v[0] == 1, "its count");
    must(unwadegiro_town_count(&town, 2, v, 1) == UNWADEGIRO_ZONE_STANDS_NOT && v[0] == 0, "no zone");
    must(unwadegiro_town_report(&town, 7, 1, 5.5f, 3, came, 16, went, 16, v, 3) == UNWADEGIRO_WRONG_TEAM,
         "a log's car has team 0");
    must(unwadegiro_town_report(&town, 9, 3, 5.5f, 3, came, 16, went, 16, v, 3) == 0, "a car of team 3");
    must(unwadegiro_town_holder(&town, 1, v, 9) == 0 && memcmp(v, standing, sizeof v) == 0, "its holder");
    must(unwadegiro_town_sound(&town, v, 1) == 0 && v[0] == 1, "it is sound");
    must(unwadegiro_town_count(&log, 1, v, 1) == UNWADEGIRO_BAD_TABLES, "the log's own lengths are not the town's");
    must(unwadegiro_town_log_end(&log, held, sizeof held, out, sizeof out, told, 2) == 0 && told[1] == 10, "the end");
    must(memcmp(out, "R\t0\t2\t7,9\n", 10) == 0, "the last answer");
    must(unwadegiro_town_log(&log, (const uint8_t *)again, sizeof again - 1, held, sizeof held, out, sizeof out, told,
                             2) == 0 &&
             told[1] == 5 && memcmp(out, "P\t15\n", 5) == 0,
         "a car that is not of team 0");
    log.head[0] = 0, log.head[1] = 256, log.head[2] = 256;
    must(unwadegiro_town_of_log(&town, &log) == UNWADEGIRO_BAD_TABLES, "more starts than there are");
    free(block);
}

int main(void)
{
    unwadegiro_town town, other;
    uint32_t seen[16] = {0}, i;
    void *block, *copy;
    size_t bytes;

    must(unwadegiro_town_lengths(&town, 6, 1, 1, 1, 1, 1) == 1 && unwadegiro_town_bytes(&town) == 0, "1");
    must(unwadegiro_town_lengths(&town, 0, 1, 1, 0, 1, 1) == 2 && town.head_len == 0, "2");
    must(unwadegiro_town_lengths(&town, 5, 8, 8, 256, 1024, 16384) == 0 && unwadegiro_town_bytes(&town) == 703772,
         "the largest");
    must(unwadegiro_town_lengths(&town, SHAPE_AND_ROOM) == 0, "lengths");
    bytes = unwadegiro_town_bytes(&town);
    must(bytes == sizeof head + sizeof zones + sizeof cars + sizeof spots + sizeof starts + sizeof entries +
                      sizeof rosters + sizeof tallies,
         "bytes");
    block = malloc(bytes), copy = malloc(bytes);
    must(block != NULL && copy != NULL, "memory");
    memset(block, 0xAB, bytes);
    unwadegiro_town_place(&town, block);
    must((uint8_t *)block + bytes == town.rosters + town.rosters_len, "the block's end");
    must(unwadegiro_open(TABLES, SHAPE_AND_ROOM) == 0 && unwadegiro_town_open(&town, SHAPE_AND_ROOM) == 0, "open");
    same(&town);
    for (i = 0; i < 200000; i++)
        turn(&town, seen);
    for (i = 0; i < 16; i++)
        must(seen[i] > 0, "every call is accepted at some time, and a report gets 15");
    /* a copy of the block is a town of its own */
    memcpy(copy, block, bytes);
    other = town;
    unwadegiro_town_place(&other, copy);
    same(&other);
    must(unwadegiro_town_open(&town, SHAPE_AND_ROOM) == 0, "open");
    same(&other);
    for (i = 0; i < 1000; i++)
        turn(&other, seen);
    free(block), free(copy);
    log_town();
    printf("header: all as it should be\n");
    return 0;
}
