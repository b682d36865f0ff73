/* Colliedash, the timing desk: the functions that a host links (libhosts.a, x86-64).

   A tick is one nanosecond. An epoch is a count of ticks past Julian date 2443144.5003725 as its
   scale reads it.

   Every function answers every input. An answer's number is 0 where it is accepted, with place and
   index 0. Otherwise number and place are the refusal's and, for a batch, index the entry's; every
   other field is 0, and nothing that was lent has been written. A null pointer is allowed where its
   length is 0. Two lists that are lent at once share no memory.

   Scale codes: 1 GPS, 2 TAI, 3 TT, 4 TCG, 5 TDB, 6 TCB; 0 is read as TT. Code 7 is UTC, where a
   UTC reading is read or written and nowhere else; there no other code will do.

   number  when                                                            place
   1       a scale code is above 6, or is 7 for UTC where it may not be,   0 from, 1 to
           or is another where it must be 7
   2       a double is NaN or infinite                                     part, 0 or 1
   3       a date part lies beyond 5,000,000 days either way,              part, 0 or 1
           seconds beyond 10^10
   4       an epoch lies outside -6*10^18 .. 6*10^18                       steps done, the one that
                                                                           led outside counted
   5       a UTC day, or a tick to be written as UTC, lies before the      0
           first day of the list of leap seconds, or ticks are negative
           or at or past the day's end
   6       an epoch lies outside the table                                 steps done
   7       the list of leap seconds breaks a rule                          0
   8       the lent lengths don't fit, or that list's is odd               0
   10      the bytes are not 2 to 121 whole blocks                         0
   11      a check is wrong                                                lowest block
   12      a kind, edition, number, count or zero byte is wrong            lowest block
   13      a bound is broken, or the blocks aren't 1 plus G/3 rounded up   0
   14      a coefficient lies beyond 2^40 either way                       lowest granule
   15      a weight lies above 2^40 or above H                             lowest granule
   16      two granules meet with more than 1024 units between them        the later granule
   20      two tables that are compared differ in S, H or G                0

   They are told in the order 1 (from, then to), 8, 7, 10 to 16, 2, 3, 5 of a reading, 4 at the
   start, then step by step, 6 before 4, and last 5 of a tick to be written. A conversion that does
   not cross between TT and TDB never looks at the table.

   A list of leap seconds is lent flat: first day (Modified Julian Day), TAI-UTC in seconds from
   that day on, first day, seconds, and so on. It has 1 to 64 such pairs and starts with 41317 and
   10; days rise strictly, and seconds change by exactly one. The day before a rise has 86,401 s,
   whose leap second is the ticks from 86,400*10^9 on; the day before a fall has 86,399. After the
   last pair its seconds hold for ever. */
#ifndef COLLIEDASH_H
#define COLLIEDASH_H

#include <stddef.h>
#include <stdint.h>

#ifdef __cplusplus
extern "C" {
#endif

typedef struct {
    uint32_t number;
    uint32_t steps;
    uint64_t place;
    uint64_t index;
    int64_t tick;
} colliedash_answer;

/* A table: its first tick (TT), the length of a granule in ticks, how many granules it has and
   their degree. */
typedef struct {
    uint32_t number;
    uint32_t count;
    uint32_t degree;
    uint64_t place;
    int64_t start;
    int64_t length;
} colliedash_table;

/* A Julian date in two parts, in days. */
typedef struct {
    uint32_t number;
    uint64_t place;
    double first;
    double second;
} colliedash_date;

/* A UTC reading: a Modified Julian Day and ticks within the day. */
typedef struct {
    uint32_t number;
    uint32_t steps;
    uint64_t place;
    int64_t day;
    int64_t ticks;
} colliedash_utc;

/* What changed between two tables: how many granules differ. `which` is the table that was refused,
   0 the first and 1 the second; else 0. */
typedef struct {
    uint32_t number;
    uint32_t which;
    uint64_t place;
    uint64_t entries;
} colliedash_changes;

/* The numbers of the table that the bytes hold, or the refusal of 10 to 16 that they get. */
colliedash_table colliedash_judge(const uint8_t *table, size_t table_len);

/* The same, and its count*(degree+1) coefficients, granule by granule, in units of 1/65536 tick.
   The list must be exactly that long; 8 comes last. */
colliedash_table colliedash_read_table(const uint8_t *table, size_t table_len,
                                       int64_t *coefficients, size_t coefficients_len);

/* Writes a table into an image of exactly (1 + count/3 rounded up)*512 bytes. 8 comes first, then
   13 to 16. */
colliedash_answer colliedash_write_table(int64_t start, int64_t length, uint32_t count,
                                         uint32_t degree, const int64_t *coefficients,
                                         size_t coefficients_len, uint8_t *image,
                                         size_t image_len);

/* Lists each granule that differs between two tables of equal S, H and G, in rising order, at the
   front of the list, and answers how many they are; the rest of the list stays. An entry is three
   numbers: the granule, the largest absolute difference of its coefficients, and the sum of their
   absolute differences, in units of 1/65536 tick, a missing coefficient counting as zero. That sum
   bounds how far TT - TDB of the one table is from that of the other, by the exact Chebyshev sums,
   anywhere in the granule. The list is empty exactly where all granules mean the same. The first
   table is judged by 10 to 16, then the second; then 20; then 8, exactly where the list is shorter
   than three numbers an entry. */
colliedash_changes colliedash_compare_tables(const uint8_t *first, size_t first_len,
                                             const uint8_t *second, size_t second_len,
                                             int64_t *entries, size_t entries_len);

/* A tick as a date: first is the last Julian date ending in .5 not after it, exact; second the part
   of a day since then, from 0 to below 1. Or refusal 4. */
colliedash_date colliedash_write_date(int64_t tick);

/* Converts a tick of the scale `from` into the scale `to`, over the table that the bytes hold: its
   tick there, and the steps walked, 0 to 4. */
colliedash_answer colliedash_convert_ticks(uint32_t from, uint32_t to, int64_t tick,
                                           const uint8_t *table, size_t table_len);

/* The same of a Julian date in two parts, in days. The exact sum of both is rounded once to the
   nearest tick, a half to the greater: so a date is the same tick however it is split. */
colliedash_answer colliedash_convert_date(uint32_t from, uint32_t to, double first, double second,
                                          const uint8_t *table, size_t table_len);

/* The same of seconds past J2000, which is Julian date 2451545.0 in the scale `from`. */
colliedash_answer colliedash_convert_j2000(uint32_t from, uint32_t to, double seconds,
                                           const uint8_t *table, size_t table_len);

/* The same of a UTC reading, over a list of leap seconds; `from` is 7. It is read as a TAI tick,
   which counts no step: into TAI there are 0. */
colliedash_answer colliedash_convert_utc(uint32_t from, uint32_t to, int64_t day, int64_t ticks,
                                         const int64_t *leaps, size_t leaps_len,
                                         const uint8_t *table, size_t table_len);

/* Converts a tick of the scale `from` into TAI and writes that as UTC, over a list of leap seconds;
   `to` is 7. Writing counts no step. */
colliedash_utc colliedash_write_utc(uint32_t from, uint32_t to, int64_t tick, const int64_t *leaps,
                                    size_t leaps_len, const uint8_t *table, size_t table_len);

/* Converts a list of ticks into a second list of equal length: all of them, with the path's steps;
   or the earliest refusal, its index, and nothing is written. The table is judged once. */
colliedash_answer colliedash_batch(uint32_t from, uint32_t to, const int64_t *ticks,
                                   size_t ticks_len, int64_t *answers, size_t answers_len,
                                   const uint8_t *table, size_t table_len);

#ifdef __cplusplus
}
#endif

#endif
