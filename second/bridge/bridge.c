/*
The bridge: a program for the archive's kind of machine, which calls the
archive's functions for `second compare`, wherever that one runs.

It reads requests from standard input, one after the other, and writes one
answer to each on standard output, until its input ends. An answer is written
before the next call is made, though more requests may have been sent by then.
Every number is 8 bytes, little-endian: a narrower one is widened with zeros, a
signed one is its two's complement, a double is its bits.

A request:
    function            0: none, the bridge alone answers; 1 to 11: as listed below
    numbers[4]          the call's plain arguments, in their order; then zeros
    table kind, length  the table; a length counts bytes
    second kind, length the second table, where two are compared
    list kind, length   the list lent to read
    written kind, length  the buffer lent to be written
    bytes               of those of the four that are GIVEN, in this order
A kind: 0 a null pointer (its length is 0); 1 GIVEN, the bytes follow; 2 SAME,
the bytes that this place was GIVEN last (large tables are asked about often).
Each place has memory of its own, also where two tables are the same.

An answer:
    request             how many requests were read so far, this one included
    seen                what the call did beside its answer: bits 0, 1, 2, changed
                        the table, the second table, the list; bits 3, 4, 5, 6,
                        wrote right before or behind the table, the second
                        table, the list, the buffer
    numbers[6]          the fields of the answer, in their order; then zeros
    bytes               of the buffer lent to be written, as they are now
*/

typedef unsigned char u8;
typedef unsigned int u32;
typedef unsigned long u64;
typedef long i64;

/* What the bridge needs of the C library; the kit has no headers. */
extern long read(int, void *, u64);
extern long write(int, const void *, u64);
extern void *malloc(u64);
extern void free(void *);
extern void *memcpy(void *, const void *, u64);
extern int memcmp(const void *, const void *, u64);
extern u64 strlen(const char *);
extern _Noreturn void _exit(int);

typedef struct { u32 number; u32 steps; u64 place; u64 index; i64 tick; } answer;
typedef struct { u32 number; u64 place; double first; double second; } date;
typedef struct { u32 number; u32 count; u32 degree; u64 place; i64 start; i64 length; } table;
typedef struct { u32 number; u32 steps; u64 place; i64 day; i64 ticks; } utc;
typedef struct { u32 number; u32 which; u64 place; u64 entries; } changes;

/* All of them: an archive that lacks one makes no bridge. */
table colliedash_judge(const u8 *, u64);
table colliedash_read_table(const u8 *, u64, i64 *, u64);
answer colliedash_write_table(i64, i64, u32, u32, const i64 *, u64, u8 *, u64);
date colliedash_write_date(i64);
answer colliedash_convert_ticks(u32, u32, i64, const u8 *, u64);
answer colliedash_convert_date(u32, u32, double, double, const u8 *, u64);
answer colliedash_convert_j2000(u32, u32, double, const u8 *, u64);
answer colliedash_batch(u32, u32, const i64 *, u64, i64 *, u64, const u8 *, u64);
answer colliedash_convert_utc(u32, u32, i64, i64, const i64 *, u64, const u8 *, u64);
utc colliedash_write_utc(u32, u32, i64, const i64 *, u64, const u8 *, u64);
changes colliedash_compare_tables(const u8 *, u64, const u8 *, u64, i64 *, u64);

enum { NONE, JUDGE, READ_TABLE, WRITE_TABLE, WRITE_DATE, TICKS, DATE, J2000, BATCH, CONVERT_UTC,
       WRITE_UTC, COMPARE_TABLES, FUNCTIONS };
enum { NOTHING, GIVEN, SAME };
enum { TABLE, SECOND_TABLE, LIST, WRITTEN, PLACES };
/* As long as a block of a table: who writes one block too many is seen. */
enum { GUARD = 512 };

struct request { u64 function, numbers[4], loans[PLACES][2]; };
struct reply { u64 request, seen, numbers[6]; };
/* One place that is lent: guard, bytes, guard; and the bytes once more. */
struct loan { u64 room, given, length; u8 *whole, *kept, *lent; };

static struct loan loans[PLACES];
static u8 guard[GUARD];

static _Noreturn void stop(const char *why)
{
    write(2, why, strlen(why));
    _exit(2);
}

static void *room_for(u64 length)
{
    void *room = malloc(length);
    if (!room) stop("the bridge: no memory\n");
    return room;
}

static u8 arrived[1 << 16];
static u64 arrived_from, arrived_to;

/* Reads exactly so many bytes; 0 where the input ends before the first. */
static int take(u8 *into, u64 length)
{
    u64 done = 0;
    while (done < length) {
        u64 part = arrived_to - arrived_from;
        if (part == 0) {
            long more = read(0, arrived, sizeof arrived);
            if (more <= 0 && done == 0) return 0;
            if (more <= 0) stop("the bridge: half a request\n");
            arrived_from = 0;
            arrived_to = (u64)more;
            continue;
        }
        if (part > length - done) part = length - done;
        memcpy(into + done, arrived + arrived_from, part);
        arrived_from += part;
        done += part;
    }
    return 1;
}

static void give(const u8 *bytes, u64 length)
{
    while (length > 0) {
        long part = write(1, bytes, length);
        if (part <= 0) stop("the bridge: nobody reads the answers\n");
        bytes += part;
        length -= (u64)part;
    }
}

static void lay_guards(struct loan *loan)
{
    memcpy(loan->whole, guard, GUARD);
    memcpy(loan->whole + GUARD + loan->given, guard, GUARD);
}

/* Takes the bytes of a loan that is GIVEN. */
static void fill(struct loan *loan, u64 length)
{
    if (!loan->whole || length > loan->room) {
        free(loan->whole);
        free(loan->kept);
        loan->whole = room_for(length + 2 * GUARD);
        loan->kept = room_for(length + 1);
        loan->room = length;
    }
    loan->given = length;
    if (length > 0 && !take(loan->kept, length)) stop("the bridge: half a request\n");
    memcpy(loan->whole + GUARD, loan->kept, length);
    lay_guards(loan);
}

static void lend(struct loan *loan, const u64 asked[2])
{
    u64 kind = asked[0], length = asked[1];
    if (kind == GIVEN) fill(loan, length);
    else if (kind == SAME ? !loan->whole || length != loan->given : kind != NOTHING || length != 0)
        stop("the bridge: a loan that is not understood\n");
    loan->lent = kind == NOTHING ? 0 : loan->whole + GUARD;
    loan->length = length;
}

/* What the call did to the four; a table and its guards are then as before. */
static u64 look(void)
{
    u64 seen = 0;
    for (int place = 0; place < PLACES; place++) {
        struct loan *loan = &loans[place];
        if (!loan->lent) continue;
        if (memcmp(loan->whole, guard, GUARD) || memcmp(loan->lent + loan->length, guard, GUARD)) {
            seen |= 1ul << (WRITTEN + place);
            lay_guards(loan);
        }
        if (place != WRITTEN && memcmp(loan->lent, loan->kept, loan->length)) {
            seen |= 1ul << place;
            memcpy(loan->lent, loan->kept, loan->length);
        }
    }
    return seen;
}

static double as_double(u64 bits)
{
    double value;
    memcpy(&value, &bits, sizeof value);
    return value;
}

static u64 as_bits(double value)
{
    u64 bits;
    memcpy(&bits, &value, sizeof bits);
    return bits;
}

static void note_answer(u64 *to, answer got)
{
    to[0] = got.number;
    to[1] = got.steps;
    to[2] = got.place;
    to[3] = got.index;
    to[4] = (u64)got.tick;
}

static void note_date(u64 *to, date got)
{
    to[0] = got.number;
    to[1] = got.place;
    to[2] = as_bits(got.first);
    to[3] = as_bits(got.second);
}

static void note_table(u64 *to, table got)
{
    to[0] = got.number;
    to[1] = got.count;
    to[2] = got.degree;
    to[3] = got.place;
    to[4] = (u64)got.start;
    to[5] = (u64)got.length;
}

static void note_utc(u64 *to, utc got)
{
    to[0] = got.number;
    to[1] = got.steps;
    to[2] = got.place;
    to[3] = (u64)got.day;
    to[4] = (u64)got.ticks;
}

static void note_changes(u64 *to, changes got)
{
    to[0] = got.number;
    to[1] = got.which;
    to[2] = got.place;
    to[3] = got.entries;
}

/* The functions that are lent a list, or a buffer to be written. */
static void call_with_lists(u64 function, const u64 *n, u64 *to)
{
    const u8 *bytes = loans[TABLE].lent;
    const i64 *list = (const i64 *)loans[LIST].lent;
    u8 *image = loans[WRITTEN].lent;
    i64 *into = (i64 *)image;
    u64 size = loans[TABLE].length, many = loans[LIST].length / 8;
    u64 image_size = loans[WRITTEN].length, room = image_size / 8;
    switch (function) {
    case READ_TABLE: note_table(to, colliedash_read_table(bytes, size, into, room)); break;
    case WRITE_TABLE:
        note_answer(to, colliedash_write_table((i64)n[0], (i64)n[1], (u32)n[2], (u32)n[3],
                                               list, many, image, image_size));
        break;
    case BATCH:
        note_answer(to, colliedash_batch((u32)n[0], (u32)n[1], list, many, into, room,
                                         bytes, size));
        break;
    case CONVERT_UTC:
        note_answer(to, colliedash_convert_utc((u32)n[0], (u32)n[1], (i64)n[2], (i64)n[3],
                                               list, many, bytes, size));
        break;
    case WRITE_UTC:
        note_utc(to, colliedash_write_utc((u32)n[0], (u32)n[1], (i64)n[2], list, many,
                                          bytes, size));
        break;
    case COMPARE_TABLES:
        note_changes(to, colliedash_compare_tables(bytes, size, loans[SECOND_TABLE].lent,
                                                   loans[SECOND_TABLE].length, into, room));
    }
}

/* The others: a table at most is lent to them. */
static void call_plain(u64 function, const u64 *n, u64 *to)
{
    const u8 *bytes = loans[TABLE].lent;
    u64 size = loans[TABLE].length;
    u32 from = (u32)n[0], into = (u32)n[1];
    switch (function) {
    case JUDGE: note_table(to, colliedash_judge(bytes, size)); break;
    case WRITE_DATE: note_date(to, colliedash_write_date((i64)n[0])); break;
    case TICKS:
        note_answer(to, colliedash_convert_ticks(from, into, (i64)n[2], bytes, size));
        break;
    case DATE:
        note_answer(to, colliedash_convert_date(from, into, as_double(n[2]), as_double(n[3]),
                                                bytes, size));
        break;
    case J2000:
        note_answer(to, colliedash_convert_j2000(from, into, as_double(n[2]), bytes, size));
    }
}

static void call(u64 function, const u64 *n, u64 *to)
{
    if (function == NONE) return;
    if (function >= FUNCTIONS) stop("the bridge: a function that is not there\n");
    switch (function) {
    case READ_TABLE: case WRITE_TABLE: case BATCH: case CONVERT_UTC: case WRITE_UTC:
    case COMPARE_TABLES:
        call_with_lists(function, n, to);
        break;
    default: call_plain(function, n, to);
    }
}

/* One write for each answer: its head and the buffer's bytes together. */
static void reply(const struct reply *head)
{
    static u8 *out;
    static u64 room;
    u64 length = sizeof *head + loans[WRITTEN].length;
    if (length > room) {
        free(out);
        out = room_for(length);
        room = length;
    }
    memcpy(out, head, sizeof *head);
    if (loans[WRITTEN].lent) memcpy(out + sizeof *head, loans[WRITTEN].lent, loans[WRITTEN].length);
    give(out, length);
}

int main(void)
{
    struct request request;
    for (int i = 0; i < GUARD; i++) guard[i] = (u8)(0xa5 ^ i);
    for (u64 count = 1; take((u8 *)&request, sizeof request); count++) {
        struct reply head = { count, 0, { 0 } };
        for (int place = 0; place < PLACES; place++) lend(&loans[place], request.loans[place]);
        call(request.function, request.numbers, head.numbers);
        head.seen = look();
        reply(&head);
    }
    return 0;
}
