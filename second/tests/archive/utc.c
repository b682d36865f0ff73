/* The third part, UTC: each function tells in its answer what it was called with. */

typedef unsigned char u8;
typedef unsigned int u32;
typedef unsigned long u64;
typedef long i64;
typedef struct { u32 number; u32 steps; u64 place; u64 index; i64 tick; } answer;
typedef struct { u32 number; u32 steps; u64 place; i64 day; i64 ticks; } utc;

/* The list's last number, its length and the table's; a null list alone gives -1. */
static i64 lent(const i64 *leaps, u64 many, u64 length)
{
    if (!leaps) return -1;
    return 1000000 * (many ? leaps[many - 1] : 0) + 1000 * (i64)many + (i64)length;
}

answer colliedash_convert_utc(u32 from, u32 to, i64 day, i64 ticks, const i64 *leaps, u64 many,
                              const u8 *table, u64 length)
{
    answer got = { from, to, (u64)day, (u64)ticks, lent(leaps, many, length) };
    if (many && leaps[0] == 'c') ((i64 *)leaps)[many - 1]++;
    if (length && table[0] == '>') ((u8 *)table)[length] ^= 1;
    return got;
}

utc colliedash_write_utc(u32 from, u32 to, i64 tick, const i64 *leaps, u64 many, const u8 *table,
                         u64 length)
{
    utc got = { from, to, length ? table[length - 1] : 256, tick, lent(leaps, many, length) };
    if (many && leaps[0] == '<') ((i64 *)leaps)[-1] ^= 1;
    return got;
}
