/* A host in C: it judges a table, converts, splits a date two ways, runs a batch, reads and writes
   UTC, compares the table with the next season's and shows four refusals. Its arguments are the
   table's file, that of the leap seconds and that of the next season's table. */
#include "../include/colliedash.h"

#include <inttypes.h>
#include <stdio.h>

enum { GPS = 1, TAI, TT, TCG, TDB, TCB, UTC };

/* The largest table has 121 blocks of 512 bytes. One byte more, so that a longer file is refused
   and not cut. */
static uint8_t table[121 * 512 + 1];
static uint8_t season[121 * 512 + 1];

/* The most granules that a table has, three numbers an entry. */
static int64_t entries[3 * 360];

/* The longest list has 64 pairs. */
static int64_t leaps[2 * 64 + 1];

/* A comment's line, then a pair a line. */
static size_t read_leaps(FILE *file) {
    size_t count = 0;
    fscanf(file, "%*[^\n]");
    while (count < sizeof leaps / sizeof *leaps && fscanf(file, "%" SCNd64, &leaps[count]) == 1)
        count++;
    return count;
}

static void refused(const char *what, colliedash_answer answer) {
    printf("%s: refused %" PRIu32 ", place %" PRIu64 ", entry %" PRIu64 "\n", what, answer.number,
           answer.place, answer.index);
}

/* Each granule that differs, its differences in units of 1/65536 tick and in ticks. */
static void show_changes(const int64_t *list, uint64_t count) {
    printf("%7s%9s%6s%18s%14s\n", "granule", "largest", "sum", "largest in ticks", "sum in ticks");
    for (const int64_t *entry = list; entry < list + 3 * count; entry += 3)
        printf("%7" PRId64 "%9" PRId64 "%6" PRId64 "%18.6f%14.6f\n", entry[0], entry[1], entry[2],
               entry[1] / 65536.0, entry[2] / 65536.0);
}

int main(int argc, char **argv) {
    FILE *blocks = argc == 4 ? fopen(argv[1], "rb") : NULL;
    FILE *pairs = argc == 4 ? fopen(argv[2], "r") : NULL;
    FILE *fresh = argc == 4 ? fopen(argv[3], "rb") : NULL;
    if (!blocks || !pairs || !fresh) {
        fprintf(stderr, "usage: host TABLE LEAPS SEASON\n");
        return 2;
    }
    size_t size = fread(table, 1, sizeof table, blocks);
    fclose(blocks);
    size_t count = read_leaps(pairs);
    fclose(pairs);
    size_t season_size = fread(season, 1, sizeof season, fresh);
    fclose(fresh);

    colliedash_table judged = colliedash_judge(table, size);
    printf("table: number %" PRIu32 ", %" PRIu32 " granules of %" PRId64 " ticks, degree %" PRIu32
           ", from TT %" PRId64 "\n",
           judged.number, judged.count, judged.length, judged.degree, judged.start);

    /* No step of this path crosses the table, so none is lent. */
    colliedash_answer answer = colliedash_convert_ticks(TCB, TDB, 100000000000000000, NULL, 0);
    printf("TCB 100000000000000000 is TDB %" PRId64 ", %" PRIu32 " step\n", answer.tick,
           answer.steps);

    answer = colliedash_convert_date(GPS, TDB, 2461112.5, 0.75, table, size);
    printf("GPS 2461112.5 + 0.75 is TDB %" PRId64 ", %" PRIu32 " steps\n", answer.tick,
           answer.steps);

    colliedash_date date = colliedash_write_date(answer.tick);
    printf("which is the date %.1f + %.15f\n", date.first, date.second);

    /* One moment, half a tick past 43169793539062, split two ways: it is one tick. */
    answer = colliedash_convert_date(TT, TT, 2443145.0 + 3.0 / 262144, 3.0 / 262144, NULL, 0);
    printf("TT 2443145 and 3/262144, + 3/262144, is %" PRId64 "\n", answer.tick);
    answer = colliedash_convert_date(TT, TT, 2443144.5, 0.5 + 3.0 / 131072, NULL, 0);
    printf("TT 2443144.5 + 1/2 and 3/131072 is %" PRId64 "\n", answer.tick);

    /* Who buzzed first? Three crews, all tagged by GPS. */
    int64_t buzzes[3] = {1600000000000000007, 1600000000000000000, 1600000000250000000};
    int64_t answers[3] = {-1, -1, -1};
    answer = colliedash_batch(GPS, TCB, buzzes, 3, answers, 3, table, size);
    printf("batch of GPS to TCB, %" PRIu32 " steps: %" PRId64 " %" PRId64 " %" PRId64 "\n",
           answer.steps, answers[0], answers[1], answers[2]);

    /* The leap second of 2016-12-31. No table is crossed on the way to TT. */
    answer = colliedash_convert_utc(UTC, TT, 57753, 86400000000000, leaps, count, NULL, 0);
    printf("UTC day 57753, ticks 86400000000000 is TT %" PRId64 ", %" PRIu32 " step\n", answer.tick,
           answer.steps);

    colliedash_utc utc =
        colliedash_write_utc(TT, UTC, answer.tick + 1000000000, leaps, count, NULL, 0);
    printf("a second later it is UTC day %" PRId64 ", ticks %" PRId64 ", %" PRIu32 " step\n",
           utc.day, utc.ticks, utc.steps);

    /* No other day near it has one. */
    refused("UTC day 57754, ticks 86400000000000",
            colliedash_convert_utc(UTC, TT, 57754, 86400000000000, leaps, count, NULL, 0));

    refused("TT 0 to TDB", colliedash_convert_ticks(TT, TDB, 0, table, size));

    /* One bad entry, and nothing is written. */
    buzzes[2] = INT64_MAX;
    answers[0] = -1;
    refused("batch", colliedash_batch(GPS, TCB, buzzes, 3, answers, 3, table, size));
    printf("its first answer is still %" PRId64 "\n", answers[0]);

    /* What changed from this season's table to the next? */
    size_t room = sizeof entries / sizeof *entries;
    colliedash_changes changes =
        colliedash_compare_tables(table, size, season, season_size, entries, room);
    printf("next season: %" PRIu64 " of %" PRIu32 " granules differ\n", changes.entries,
           judged.count);
    show_changes(entries, changes.entries);

    /* Room for two entries where there are three, and nothing is written. */
    changes = colliedash_compare_tables(table, size, season, season_size, entries, 6);
    printf("into a list of 6 numbers: refused %" PRIu32 ", place %" PRIu64 ", table %" PRIu32 "\n",
           changes.number, changes.place, changes.which);
    return 0;
}
