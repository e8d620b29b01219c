/*
 * unwadegiro: zones, cars and rosters of a town, over tables that the caller lends.
 *
 * Ownership. The caller owns all memory. A call allocates nothing, keeps no pointer and no state: a town is its eight
 * tables and nothing else. The calls may be made from any thread, as long as nobody else uses what a call was lent while
 * it runs, other calls that only read the same tables apart.
 *
 * Slices. A slice is a pointer and a length, counted in elements. The pointer must be aligned for its element and valid
 * for the whole length; where the length is 0 it is not read and may be anything. The slices of one call must not
 * overlap each other: not the tables, not the buffers, not `values`.
 *
 * Tables. Shape and capacities fix the length of each of the eight (unwadegiro_lengths gives them). unwadegiro_open
 * writes them; from then on they are lent together, in this order, as that town's tables and as nothing else:
 *
 *   head     uint32_t   shape and capacities
 *   zones    uint32_t   the zones' rectangles
 *   cars     uint32_t   which cars are on the map, and for which team
 *   spots    float      the cars' positions
 *   starts   uint32_t   where each square's list starts
 *   entries  uint32_t   the lists of zones
 *   rosters  uint8_t    which car is in which zone
 *   tallies  uint32_t   how many cars are in each zone, of all teams and of each, and which team holds it
 *
 * docs/LAYOUT.md says what stands in them. A table that a call does not change is lent as const.
 *
 * C and C++. The struct unwadegiro_town, at the end of this header, holds the tables of a town. Each call that is lent
 * tables has an inline function over it, so a caller names no table, and changes nothing when there is one more.
 *
 * Answers. Every call returns 0, or the number of the refusal (below). What it answers besides goes into `values`, from
 * its front, as far as it goes: a slice that is longer keeps the rest, one that is shorter gets the first values alone. On
 * a refusal these values are 0, and no byte of a table or a buffer changes. A list goes into the front of a buffer, lowest
 * first; the buffer past it keeps its bytes.
 *
 * On tables that are not sound (unwadegiro_sound), a call still ends, stays within what it was lent and gives every
 * refusal but 12 as said; what an accepted call answers and writes there is not promised, open, sound and where apart.
 *
 * Stack. On x86-64 a report takes 472 bytes of stack beside its arguments. docs/COSTS.md has every call.
 *
 * Teams. A car on the map has a team, 0 to 7: the one that it came with, until it leaves. It may come back with another.
 * Team 0 are the spectators: they are on rosters and counted, and hold nothing. The holder of a zone is the team from 1 to
 * 7 that has strictly more cars inside than each other team from 1 to 7. Where there is none, by a tie or because no car of
 * these teams is inside, nobody holds the zone, written 0.
 *
 * NaNs. The proofs know one NaN, which has no bits of its own. So where a NaN stands in spots, what a call keeps there or
 * unwadegiro_where gives is proved to be a NaN, but not to have the same bits. A NaN is never on the map, so no call
 * stores one, and on sound tables no car on the map has one. The check in rust/ compares the bits of the compiled code
 * all the same: they are kept and given as they stand.
 *
 * Cells. The town has W = P * 2^k columns, counted from 0 from the west, and H = Q * 2^k rows, counted from 0 from the
 * south. A position is on the map where 0 <= x <= W and 0 <= y <= H. Its cell is the floor of x and of y: column floor(x),
 * row floor(y). So x = 10.75 is column 10, and x = 11 is column 11. Exactly at the outer wall it is the last one: x = W is
 * column W - 1, y = H is row H - 1; the next float above is off the map. -0.0f is on the map, in cell 0. No other number
 * with the sign bit set is, nor an infinity or a NaN. A position is stored as it came, with the sign of -0.0f, at W as W.
 *
 * Squares. The town is P blocks from west to east times Q from south to north, each of L by L cells, L = 2^k. Level i, for
 * 0 <= i <= k, splits each block into 4^i squares of side L / 2^i: level 0 is the block, level k the cells. The square of
 * level i in which the cell (x, y) lies has (all divisions drop the rest)
 *
 *   block    x / L + (y / L) * P
 *   local    of the low k bits of x and of y the top i of each, interleaved, the bit of y above the bit of x of the
 *            same rank; 0 on level 0
 *   number   4^i * block + local
 *
 * so that the numbers of level i go from 0 to P * Q * 4^i - 1. The local numbers of one block with k = 2, north above:
 *
 *       level 2, side 1           level 1, side 2           level 0, side 4
 *
 *       +----+----+----+----+     +---------+---------+     +-------------------+
 *   3   | 10 | 11 | 14 | 15 |     |         |         |     |                   |
 *       +----+----+----+----+     |    2    |    3    |     |                   |
 *   2   |  8 |  9 | 12 | 13 |     |         |         |     |                   |
 *       +----+----+----+----+     +---------+---------+     |         0         |
 *   1   |  2 |  3 |  6 |  7 |     |         |         |     |                   |
 *       +----+----+----+----+     |    0    |    1    |     |                   |
 *   0   |  0 |  1 |  4 |  5 |     |         |         |     |                   |
 *       +----+----+----+----+     +---------+---------+     +-------------------+
 *   y
 *     x    0    1    2    3
 *
 * The children of the square with local number s, one level down, have 4s, 4s + 1, 4s + 2, 4s + 3: southwest, southeast,
 * northwest, northeast. The parent of s has s / 4. The same holds of the numbers themselves.
 *
 * With k = 2 and P = Q = 4 (L = 4, W = H = 16) the cell (10, 11) lies in block 10/4 + (11/4) * 4 = 10. In bits x = 10 ends
 * in 1 0, and y = 11 in 1 1.
 *
 *   level 2   bits y x y x = 1 1 1 0   local 14   number 16 * 10 + 14 = 174
 *   level 1   bits y x     = 1 1       local 3    number  4 * 10 +  3 = 43
 *   level 0                            local 0    number  1 * 10 +  0 = 10
 *
 * Cuts. A rectangle (a, b, w, h) holds the cells with a <= x < a + w and b <= y < b + h. Its cut is every square that lies
 * wholly inside it and is on level 0 or has a parent that does not. So each of its cells lies in exactly one square of the
 * cut. In the list of a cut a square is one number, its code: level * UNWADEGIRO_LEVEL + number. The list goes by level,
 * 0 first, and by rising number within a level, which is by rising code. In the town above the cut of (8, 8, 3, 2) has
 * three squares: number 40 on level 1, the cells from (8, 8) to (9, 9), and 164 and 166 on level 2, the cells (10, 8) and
 * (10, 9). Their codes are 1048616, 2097316, 2097318.
 */
#ifndef UNWADEGIRO_H
#define UNWADEGIRO_H

#include <stddef.h>
#include <stdint.h>

#ifdef __cplusplus
extern "C" {
#endif

/* What a call returns. A call meets the refusals named with it, in the order in which they are named: the first that
 * applies is given. 14 stands in a log's answers alone. */
#define UNWADEGIRO_DONE 0u               /* done */
#define UNWADEGIRO_BAD_SHAPE 1u          /* the shape is beyond the bounds */
#define UNWADEGIRO_BAD_CAPACITY 2u       /* a capacity is beyond the bounds */
#define UNWADEGIRO_BAD_TABLES 3u         /* a table has not its length, or what head says is beyond the bounds */
#define UNWADEGIRO_NO_SUCH_ZONE 4u       /* the zone number is at or above the capacity */
#define UNWADEGIRO_NO_SUCH_CAR 5u        /* the car number is at or above the capacity */
#define UNWADEGIRO_ZONE_STANDS 6u        /* the zone stands already */
#define UNWADEGIRO_ZONE_STANDS_NOT 7u    /* the zone does not stand */
#define UNWADEGIRO_CAR_OFF_MAP 8u        /* the car is not on the map */
#define UNWADEGIRO_BAD_RECTANGLE 9u      /* the rectangle has no cell, or passes the town's edge */
#define UNWADEGIRO_POSITION_OFF_MAP 10u  /* the position is not on the map */
#define UNWADEGIRO_BUFFER_SHORT 11u      /* a buffer is too short */
#define UNWADEGIRO_NO_ROOM 12u           /* the zone's squares do not fit into the entries that are free */
#define UNWADEGIRO_BAD_SQUARE 13u        /* no such square: its level, number or corner */
#define UNWADEGIRO_WRONG_TEAM 15u        /* the team is above 7, or not the one that the car on the map has */

/* The bounds. W = P * 2^k and H = Q * 2^k are the town's columns and rows. */
#define UNWADEGIRO_MAX_K 5u
#define UNWADEGIRO_MAX_SIDE 256u
#define UNWADEGIRO_MAX_ZONES 256u
#define UNWADEGIRO_MAX_CARS 1024u
#define UNWADEGIRO_MAX_ENTRIES 16384u
#define UNWADEGIRO_MAX_TEAM 7u

/* The code of a square in the list of a cut: level * UNWADEGIRO_LEVEL + its number on that level. */
#define UNWADEGIRO_LEVEL 1048576u

/*
 * The lengths of the tables for a shape (k, P, Q) and capacities. Shape: k at most 5, P and Q at least 1, W and H at most
 * 256. Capacities: zones 1 to 256, cars 1 to 1,024, entries 1 to 16,384.
 * Values, 8: the lengths of head, zones, cars, spots, starts, entries, rosters, tallies.
 * Refusals: 1, 2.
 */
uint32_t unwadegiro_lengths(uint32_t k, uint32_t P, uint32_t Q, uint32_t zones, uint32_t cars, uint32_t entries,
                            uint32_t *values, size_t values_len);

/*
 * Writes a town with no zone and no car into the tables, whatever lay there.
 * Refusals: 1, 2, 3.
 */
uint32_t unwadegiro_open(uint32_t *head, size_t head_len, uint32_t *zones, size_t zones_len, uint32_t *cars,
                         size_t cars_len, float *spots, size_t spots_len, uint32_t *starts, size_t starts_len,
                         uint32_t *entries, size_t entries_len, uint8_t *rosters, size_t rosters_len,
                         uint32_t *tallies, size_t tallies_len, uint32_t k, uint32_t P, uint32_t Q,
                         uint32_t zone_capacity, uint32_t car_capacity, uint32_t entry_capacity);

/*
 * Adds a zone: its number and its rectangle, the cells with a <= x < a + w and b <= y < b + h. Cars that stand in it are
 * on its roster, and counted for their teams, at once.
 * Values, 2: how many squares its cut has; how many cars are inside.
 * Refusals: 3, 4, 6, 9, 12.
 */
uint32_t unwadegiro_add(const uint32_t *head, size_t head_len, uint32_t *zones, size_t zones_len, const uint32_t *cars,
                        size_t cars_len, const float *spots, size_t spots_len, uint32_t *starts, size_t starts_len,
                        uint32_t *entries, size_t entries_len, uint8_t *rosters, size_t rosters_len, uint32_t *tallies,
                        size_t tallies_len, uint32_t zone, uint32_t a, uint32_t b, uint32_t w, uint32_t h,
                        uint32_t *values, size_t values_len);

/*
 * Removes a zone. Its entries and its number are free for later zones.
 * Refusals: 3, 4, 7.
 */
uint32_t unwadegiro_remove(const uint32_t *head, size_t head_len, uint32_t *zones, size_t zones_len,
                           const uint32_t *cars, size_t cars_len, const float *spots, size_t spots_len,
                           uint32_t *starts, size_t starts_len, uint32_t *entries, size_t entries_len,
                           uint8_t *rosters, size_t rosters_len, uint32_t *tallies, size_t tallies_len, uint32_t zone);

/*
 * Moves a zone that stands: by `columns` to the east and `rows` to the north, to the west and the south where they are
 * below 0. Its size stays. Where it would pass an edge of the town, the west and the south one too, it gets 9; the sums are
 * those of whole numbers, for any two int32_t. `entered` gets the cars inside after the ride and not before, `left` those
 * inside before and not after; each must have room for as many cars as the car capacity. Squares that the old cut and the
 * new one share keep their entries, and the others of the old cut are free for the new: 12 is given exactly where the
 * entries in use, less the squares of the old cut, plus those of the new, are more than the entry capacity. By 0 and 0
 * nothing changes.
 * Values, 4: how many squares of the old cut are not in the new (dropped); how many of the new are not in the old (taken
 * up); how many cars are in `entered`; how many in `left`.
 * Refusals: 3, 4, 7, 9, 11, 12.
 */
uint32_t unwadegiro_ride(const uint32_t *head, size_t head_len, uint32_t *zones, size_t zones_len,
                         const uint32_t *cars, size_t cars_len, const float *spots, size_t spots_len, uint32_t *starts,
                         size_t starts_len, uint32_t *entries, size_t entries_len, uint8_t *rosters,
                         size_t rosters_len, uint32_t *tallies, size_t tallies_len, uint32_t zone, int32_t columns,
                         int32_t rows, uint32_t *entered, size_t entered_len, uint32_t *left, size_t left_len,
                         uint32_t *values, size_t values_len);

/*
 * Places a car on the map with a team, 0 to 7, or moves it; a car on the map names the team that it has. A position is on
 * the map where 0 <= x <= W and 0 <= y <= H, -0.0f too; its cell is column floor(x), row floor(y), and at x = W or y = H
 * the last one. `entered` gets the zones that hold the new cell and not the old, `left` those that hold the old and not
 * the new; each must have room for as many zones as the zone capacity. A car that was off the map enters all that hold
 * the new cell. Where tables that are not sound give a car a team above 7, every report of it gets 15.
 * Values, 3: squares looked into (0 where the cell stays the same); how many zones are in `entered`; how many in `left`.
 * Refusals: 3, 5, 15, 10, 11.
 */
uint32_t unwadegiro_report(const uint32_t *head, size_t head_len, const uint32_t *zones, size_t zones_len,
                           uint32_t *cars, size_t cars_len, float *spots, size_t spots_len, const uint32_t *starts,
                           size_t starts_len, const uint32_t *entries, size_t entries_len, uint8_t *rosters,
                           size_t rosters_len, uint32_t *tallies, size_t tallies_len, uint32_t car, uint32_t team,
                           float x, float y, uint32_t *entered, size_t entered_len, uint32_t *left, size_t left_len,
                           uint32_t *values, size_t values_len);

/*
 * Takes a car off the map. `left` gets the zones that it was in; it must have room for the zone capacity.
 * Values, 2: squares looked into, k + 1; how many zones are in `left`.
 * Refusals: 3, 5, 8, 11.
 */
uint32_t unwadegiro_leave(const uint32_t *head, size_t head_len, const uint32_t *zones, size_t zones_len,
                          uint32_t *cars, size_t cars_len, const float *spots, size_t spots_len,
                          const uint32_t *starts, size_t starts_len, const uint32_t *entries, size_t entries_len,
                          uint8_t *rosters, size_t rosters_len, uint32_t *tallies, size_t tallies_len, uint32_t car,
                          uint32_t *left, size_t left_len, uint32_t *values, size_t values_len);

/*
 * The zones that hold a position, into `found`, which must have room for the zone capacity.
 * Values, 2: squares looked into, k + 1; how many zones are in `found`.
 * Refusals: 3, 10, 11.
 */
uint32_t unwadegiro_search(const uint32_t *head, size_t head_len, const uint32_t *zones, size_t zones_len,
                           const uint32_t *cars, size_t cars_len, const float *spots, size_t spots_len,
                           const uint32_t *starts, size_t starts_len, const uint32_t *entries, size_t entries_len,
                           const uint8_t *rosters, size_t rosters_len, const uint32_t *tallies, size_t tallies_len,
                           float x, float y, uint32_t *found, size_t found_len, uint32_t *values, size_t values_len);

/*
 * Whether any zone holds a position: yes exactly where unwadegiro_search would write a zone. It goes from the cell of the
 * position up to its block and ends at the first square that is in a zone's cut, so it takes no buffer and no list.
 * Values, 2: 1 for yes, 0 for no; how many levels were looked at, 1 to k + 1: up to and with the one that it ended at, or
 * k + 1 where there is none.
 * Refusals: 3, 10.
 */
uint32_t unwadegiro_scoring(const uint32_t *head, size_t head_len, const uint32_t *zones, size_t zones_len,
                            const uint32_t *cars, size_t cars_len, const float *spots, size_t spots_len,
                            const uint32_t *starts, size_t starts_len, const uint32_t *entries, size_t entries_len,
                            const uint8_t *rosters, size_t rosters_len, const uint32_t *tallies, size_t tallies_len,
                            float x, float y, uint32_t *values, size_t values_len);

/*
 * The cars in a zone, into `inside`, which must have room for the car capacity.
 * Values, 1: how many cars are in `inside`.
 * Refusals: 3, 4, 7, 11.
 */
uint32_t unwadegiro_roster(const uint32_t *head, size_t head_len, const uint32_t *zones, size_t zones_len,
                           const uint32_t *cars, size_t cars_len, const float *spots, size_t spots_len,
                           const uint32_t *starts, size_t starts_len, const uint32_t *entries, size_t entries_len,
                           const uint8_t *rosters, size_t rosters_len, const uint32_t *tallies, size_t tallies_len,
                           uint32_t zone, uint32_t *inside, size_t inside_len, uint32_t *values, size_t values_len);

/*
 * How many cars are in a zone, of all teams: as many as unwadegiro_roster lists. The number is read as it stands in
 * tallies, so the call costs the same however many cars there are. On tables that are not sound it may be any number.
 * Values, 1: how many cars are in the zone.
 * Refusals: 3, 4, 7.
 */
uint32_t unwadegiro_count(const uint32_t *head, size_t head_len, const uint32_t *zones, size_t zones_len,
                          const uint32_t *cars, size_t cars_len, const float *spots, size_t spots_len,
                          const uint32_t *starts, size_t starts_len, const uint32_t *entries, size_t entries_len,
                          const uint8_t *rosters, size_t rosters_len, const uint32_t *tallies, size_t tallies_len,
                          uint32_t zone, uint32_t *values, size_t values_len);

/*
 * How many cars of each team are in a zone, and which team holds it (see Teams above). The numbers are read as they stand
 * in tallies, as the count is.
 * Values, 9: how many cars of team 0, of team 1 and so on to team 7; the holder, 1 to 7, or 0 for nobody.
 * Refusals: 3, 4, 7.
 */
uint32_t unwadegiro_holder(const uint32_t *head, size_t head_len, const uint32_t *zones, size_t zones_len,
                           const uint32_t *cars, size_t cars_len, const float *spots, size_t spots_len,
                           const uint32_t *starts, size_t starts_len, const uint32_t *entries, size_t entries_len,
                           const uint8_t *rosters, size_t rosters_len, const uint32_t *tallies, size_t tallies_len,
                           uint32_t zone, uint32_t *values, size_t values_len);

/*
 * Where a car is. `position` gets x and y, as far as it goes: the bits that its last accepted report gave. On a refusal
 * it gets 0 and 0. On tables that are not sound it gets what stands in spots; where that is a NaN, it is proved that a NaN
 * comes back, but not with which bits (see NaNs above).
 * Refusals: 3, 5, 8.
 */
uint32_t unwadegiro_where(const uint32_t *head, size_t head_len, const uint32_t *zones, size_t zones_len,
                          const uint32_t *cars, size_t cars_len, const float *spots, size_t spots_len,
                          const uint32_t *starts, size_t starts_len, const uint32_t *entries, size_t entries_len,
                          const uint8_t *rosters, size_t rosters_len, const uint32_t *tallies, size_t tallies_len,
                          uint32_t car, float *position, size_t position_len);

/*
 * Whether the tables are sound: each zone, each position and each team allowed, lists, rosters and tallies what zones and
 * cars give.
 * Values, 1: 1 for yes, 0 for no.
 * Refusals: 3.
 */
uint32_t unwadegiro_sound(const uint32_t *head, size_t head_len, const uint32_t *zones, size_t zones_len,
                          const uint32_t *cars, size_t cars_len, const float *spots, size_t spots_len,
                          const uint32_t *starts, size_t starts_len, const uint32_t *entries, size_t entries_len,
                          const uint8_t *rosters, size_t rosters_len, const uint32_t *tallies, size_t tallies_len,
                          uint32_t *values, size_t values_len);

/*
 * The number of the square of a level with its southwest corner at (x, y).
 * Values, 1: the number.
 * Refusals: 1; 13 where level is above k, or the corner is off the map or no multiple of the side.
 */
uint32_t unwadegiro_number(uint32_t k, uint32_t P, uint32_t Q, uint32_t level, uint32_t x, uint32_t y,
                           uint32_t *values, size_t values_len);

/*
 * The square of a level with a number.
 * Values, 3: x and y of its southwest corner; its side.
 * Refusals: 1; 13 where level is above k, or number at or above P * Q * 4^level.
 */
uint32_t unwadegiro_square(uint32_t k, uint32_t P, uint32_t Q, uint32_t level, uint32_t number, uint32_t *values,
                           size_t values_len);

/*
 * The cut of a rectangle: every square wholly inside it whose parent is not, level 0 first and by rising number within a
 * level, each as level * UNWADEGIRO_LEVEL + number, into `squares`. 65,536 is always room enough.
 * Values, 1: how many squares are in `squares`.
 * Refusals: 1, 9; 11 where `squares` is shorter than the cut.
 */
uint32_t unwadegiro_cut(uint32_t k, uint32_t P, uint32_t Q, uint32_t a, uint32_t b, uint32_t w, uint32_t h,
                        uint32_t *squares, size_t squares_len, uint32_t *values, size_t values_len);

/*
 * The log. unwadegiro_log answers a piece of a log, which is cut anywhere, and unwadegiro_log_end its end: docs/LOG.md has
 * the records and the answers. The log's town has room for 64 by 64 cells, 16 zones, 64 cars and 2,048 entries; an M opens
 * it anew. What a log has, between calls, is the eight tables, of these lengths whatever the shape, and `held`: 82 bytes,
 * the last of which says how many of the others are the beginning of a line that has not ended. All are 0 at the start.
 *
 * Lines are answered into `out` as long as UNWADEGIRO_LOG_OUT bytes of it are free, which every answer fits; then no more
 * is read. So a caller writes out what it got, and calls again with the rest of the piece until all of it is read: each
 * call reads one byte at least, unless the piece is empty. However the log is cut, the answers, one after another, are
 * those of the whole. Where the log cannot be read to its end, do not call unwadegiro_log_end: half a line may be another.
 *
 * Values, 2, of size_t: how many bytes of `piece` were read; how many bytes at the front of `out` were written. The rest of
 * `out` keeps its bytes.
 * Refusals: 3 where a table or `held` has not its length, or the last byte of `held` is above 81; 11 where `out` is shorter
 * than UNWADEGIRO_LOG_OUT. A record's own refusal stands in its answer.
 *
 * Between two calls the town may be looked at with the other calls. They want `starts` as long as the shape asks
 * (unwadegiro_lengths): lend the first of the log's, as unwadegiro_town_of_log does. A log names no teams: its P
 * lines give every car team 0, and get 15 for a car that another call has placed with another.
 */
#define UNWADEGIRO_LOG_HEAD 6u
#define UNWADEGIRO_LOG_ZONES 64u
#define UNWADEGIRO_LOG_CARS 64u
#define UNWADEGIRO_LOG_SPOTS 128u
#define UNWADEGIRO_LOG_STARTS 5462u
#define UNWADEGIRO_LOG_ENTRIES 2048u
#define UNWADEGIRO_LOG_ROSTERS 1024u
#define UNWADEGIRO_LOG_TALLIES 160u
#define UNWADEGIRO_LOG_HELD 82u
#define UNWADEGIRO_LOG_OUT 768u

uint32_t unwadegiro_log(uint32_t *head, size_t head_len, uint32_t *zones, size_t zones_len, uint32_t *cars,
                        size_t cars_len, float *spots, size_t spots_len, uint32_t *starts, size_t starts_len,
                        uint32_t *entries, size_t entries_len, uint8_t *rosters, size_t rosters_len, uint32_t *tallies,
                        size_t tallies_len, const uint8_t *piece, size_t piece_len, uint8_t *held, size_t held_len,
                        uint8_t *out, size_t out_len, size_t *values, size_t values_len);

/*
 * The log's end: what is held is its last line, without a feed, and is answered; where nothing is held, nothing is
 * written. `held` is all 0 then, and another piece would go on in the same town.
 * Values, 2: 0; how many bytes at the front of `out` were written.
 * Refusals: 3, 11, as above.
 */
uint32_t unwadegiro_log_end(uint32_t *head, size_t head_len, uint32_t *zones, size_t zones_len, uint32_t *cars,
                            size_t cars_len, float *spots, size_t spots_len, uint32_t *starts, size_t starts_len,
                            uint32_t *entries, size_t entries_len, uint8_t *rosters, size_t rosters_len,
                            uint32_t *tallies, size_t tallies_len, uint8_t *held, size_t held_len, uint8_t *out,
                            size_t out_len, size_t *values, size_t values_len);

/*
 * The tables of a town, with their lengths. Nothing of what follows is in the archive: it is compiled with the caller. A
 * town is made in four steps, of which all but the third may fail (example.c):
 *
 *   unwadegiro_town_lengths(&town, 2, 4, 4, 16, 64, 2048);    the lengths, by shape and capacities
 *   block = malloc(unwadegiro_town_bytes(&town));             memory for all tables
 *   unwadegiro_town_place(&town, block);                      the tables laid into it
 *   unwadegiro_town_open(&town, 2, 4, 4, 16, 64, 2048);       an empty town
 *
 * A caller that has memory for each table sets the pointers in place of the second and the third, and so names the tables.
 *
 * The struct only points: a copy of it is the same town. A copy of the block, with a struct of the same lengths placed on
 * it, is another town that is just as the first one was.
 */
typedef struct unwadegiro_town {
    uint32_t *head;
    size_t head_len;
    uint32_t *zones;
    size_t zones_len;
    uint32_t *cars;
    size_t cars_len;
    float *spots;
    size_t spots_len;
    uint32_t *starts;
    size_t starts_len;
    uint32_t *entries;
    size_t entries_len;
    uint8_t *rosters;
    size_t rosters_len;
    uint32_t *tallies;
    size_t tallies_len;
} unwadegiro_town;

/* The tables as the calls are lent them. */
#define UNWADEGIRO_LENT(town)                                                                                          \
    (town)->head, (town)->head_len, (town)->zones, (town)->zones_len, (town)->cars, (town)->cars_len, (town)->spots,   \
        (town)->spots_len, (town)->starts, (town)->starts_len, (town)->entries, (town)->entries_len, (town)->rosters,  \
        (town)->rosters_len, (town)->tallies, (town)->tallies_len

/* Sets the lengths, in the order of unwadegiro_lengths, and each pointer to null. */
static inline void unwadegiro_town_set(unwadegiro_town *town, const uint32_t lengths[8])
{
    town->head = NULL;
    town->head_len = lengths[0];
    town->zones = NULL;
    town->zones_len = lengths[1];
    town->cars = NULL;
    town->cars_len = lengths[2];
    town->spots = NULL;
    town->spots_len = lengths[3];
    town->starts = NULL;
    town->starts_len = lengths[4];
    town->entries = NULL;
    town->entries_len = lengths[5];
    town->rosters = NULL;
    town->rosters_len = lengths[6];
    town->tallies = NULL;
    town->tallies_len = lengths[7];
}

/*
 * Sets the lengths for a shape and capacities, and each pointer to null.
 * Refusals: 1, 2; the lengths are 0 then.
 */
static inline uint32_t unwadegiro_town_lengths(unwadegiro_town *town, uint32_t k, uint32_t P, uint32_t Q,
                                               uint32_t zone_capacity, uint32_t car_capacity, uint32_t entry_capacity)
{
    uint32_t lengths[8];
    uint32_t refusal = unwadegiro_lengths(k, P, Q, zone_capacity, car_capacity, entry_capacity, lengths, 8);

    unwadegiro_town_set(town, lengths);
    return refusal;
}

/* How many bytes the tables take, by their lengths. */
static inline size_t unwadegiro_town_bytes(const unwadegiro_town *town)
{
    size_t words = town->head_len + town->zones_len + town->cars_len + town->starts_len + town->entries_len +
                   town->tallies_len;

    return words * sizeof(uint32_t) + town->spots_len * sizeof(float) + town->rosters_len;
}

/*
 * Lays the tables into a block of memory, one behind the other. The block has unwadegiro_town_bytes bytes and is aligned
 * for uint32_t and for float, as what malloc gives is. What lies in it stays: unwadegiro_town_open writes every byte.
 */
static inline void unwadegiro_town_place(unwadegiro_town *town, void *block)
{
    town->head = (uint32_t *)block;
    town->zones = town->head + town->head_len;
    town->cars = town->zones + town->zones_len;
    town->starts = town->cars + town->cars_len;
    town->entries = town->starts + town->starts_len;
    town->tallies = town->entries + town->entries_len;
    town->spots = (float *)(void *)(town->tallies + town->tallies_len);
    town->rosters = (uint8_t *)(town->spots + town->spots_len);
}

/* The calls: each is the call of its name above, with the same arguments behind the tables, values and refusals. */

static inline uint32_t unwadegiro_town_open(unwadegiro_town *town, uint32_t k, uint32_t P, uint32_t Q,
                                            uint32_t zone_capacity, uint32_t car_capacity, uint32_t entry_capacity)
{
    return unwadegiro_open(UNWADEGIRO_LENT(town), k, P, Q, zone_capacity, car_capacity, entry_capacity);
}

static inline uint32_t unwadegiro_town_add(unwadegiro_town *town, uint32_t zone, uint32_t a, uint32_t b, uint32_t w,
                                           uint32_t h, uint32_t *values, size_t values_len)
{
    return unwadegiro_add(UNWADEGIRO_LENT(town), zone, a, b, w, h, values, values_len);
}

static inline uint32_t unwadegiro_town_remove(unwadegiro_town *town, uint32_t zone)
{
    return unwadegiro_remove(UNWADEGIRO_LENT(town), zone);
}

static inline uint32_t unwadegiro_town_ride(unwadegiro_town *town, uint32_t zone, int32_t columns, int32_t rows,
                                            uint32_t *entered, size_t entered_len, uint32_t *left, size_t left_len,
                                            uint32_t *values, size_t values_len)
{
    return unwadegiro_ride(UNWADEGIRO_LENT(town), zone, columns, rows, entered, entered_len, left, left_len, values,
                           values_len);
}

static inline uint32_t unwadegiro_town_report(unwadegiro_town *town, uint32_t car, uint32_t team, float x, float y,
                                              uint32_t *entered, size_t entered_len, uint32_t *left, size_t left_len,
                                              uint32_t *values, size_t values_len)
{
    return unwadegiro_report(UNWADEGIRO_LENT(town), car, team, x, y, entered, entered_len, left, left_len, values,
                             values_len);
}

static inline uint32_t unwadegiro_town_leave(unwadegiro_town *town, uint32_t car, uint32_t *left, size_t left_len,
                                             uint32_t *values, size_t values_len)
{
    return unwadegiro_leave(UNWADEGIRO_LENT(town), car, left, left_len, values, values_len);
}

static inline uint32_t unwadegiro_town_search(const unwadegiro_town *town, float x, float y, uint32_t *found,
                                              size_t found_len, uint32_t *values, size_t values_len)
{
    return unwadegiro_search(UNWADEGIRO_LENT(town), x, y, found, found_len, values, values_len);
}

static inline uint32_t unwadegiro_town_scoring(const unwadegiro_town *town, float x, float y, uint32_t *values,
                                               size_t values_len)
{
    return unwadegiro_scoring(UNWADEGIRO_LENT(town), x, y, values, values_len);
}

static inline uint32_t unwadegiro_town_roster(const unwadegiro_town *town, uint32_t zone, uint32_t *inside,
                                              size_t inside_len, uint32_t *values, size_t values_len)
{
    return unwadegiro_roster(UNWADEGIRO_LENT(town), zone, inside, inside_len, values, values_len);
}

static inline uint32_t unwadegiro_town_count(const unwadegiro_town *town, uint32_t zone, uint32_t *values,
                                             size_t values_len)
{
    return unwadegiro_count(UNWADEGIRO_LENT(town), zone, values, values_len);
}

static inline uint32_t unwadegiro_town_holder(const unwadegiro_town *town, uint32_t zone, uint32_t *values,
                                              size_t values_len)
{
    return unwadegiro_holder(UNWADEGIRO_LENT(town), zone, values, values_len);
}

static inline uint32_t unwadegiro_town_where(const unwadegiro_town *town, uint32_t car, float *position,
                                             size_t position_len)
{
    return unwadegiro_where(UNWADEGIRO_LENT(town), car, position, position_len);
}

static inline uint32_t unwadegiro_town_sound(const unwadegiro_town *town, uint32_t *values, size_t values_len)
{
    return unwadegiro_sound(UNWADEGIRO_LENT(town), values, values_len);
}

/* Sets the lengths of a log's tables, and each pointer to null. Its block is all 0 at the start, as calloc gives it. */
static inline void unwadegiro_town_log_lengths(unwadegiro_town *log)
{
    static const uint32_t lengths[8] = {UNWADEGIRO_LOG_HEAD,    UNWADEGIRO_LOG_ZONES,  UNWADEGIRO_LOG_CARS,
                                        UNWADEGIRO_LOG_SPOTS,   UNWADEGIRO_LOG_STARTS, UNWADEGIRO_LOG_ENTRIES,
                                        UNWADEGIRO_LOG_ROSTERS, UNWADEGIRO_LOG_TALLIES};

    unwadegiro_town_set(log, lengths);
}

static inline uint32_t unwadegiro_town_log(unwadegiro_town *log, const uint8_t *piece, size_t piece_len, uint8_t *held,
                                           size_t held_len, uint8_t *out, size_t out_len, size_t *values,
                                           size_t values_len)
{
    return unwadegiro_log(UNWADEGIRO_LENT(log), piece, piece_len, held, held_len, out, out_len, values, values_len);
}

static inline uint32_t unwadegiro_town_log_end(unwadegiro_town *log, uint8_t *held, size_t held_len, uint8_t *out,
                                               size_t out_len, size_t *values, size_t values_len)
{
    return unwadegiro_log_end(UNWADEGIRO_LENT(log), held, held_len, out, out_len, values, values_len);
}

/*
 * The town that is open in a log's tables, to look at between two calls. It shares them, and is out of date once a line
 * has opened another.
 * Refusals: 3 where no town is open.
 */
static inline uint32_t unwadegiro_town_of_log(unwadegiro_town *town, const unwadegiro_town *log)
{
    const uint32_t *head = log->head;
    uint32_t lengths[8];

    *town = *log;
    if (log->head_len != UNWADEGIRO_LOG_HEAD ||
        unwadegiro_lengths(head[0], head[1], head[2], head[3], head[4], head[5], lengths, 8) != UNWADEGIRO_DONE ||
        lengths[4] > log->starts_len)
        return UNWADEGIRO_BAD_TABLES;
    town->starts_len = lengths[4];
    return UNWADEGIRO_DONE;
}

#undef UNWADEGIRO_LENT

#ifdef __cplusplus
}
#endif

#endif
