/* The other half: each function tells in its answer what it was called with. */

typedef unsigned char u8;
typedef unsigned int u32;
typedef unsigned long u64;
typedef long i64;
typedef struct { u32 number; u32 steps; u64 place; u64 index; i64 tick; } answer;
typedef struct { u32 number; u64 place; double first; double second; } date;

static u64 bits(double value)
{
    union { double value; u64 bits; } both = { value };
    return both.bits;
}

date colliedash_write_date(i64 tick)
{
    date got = { (u32)tick, (u64)tick, -0.0, 0.1 };
    return got;
}

answer colliedash_convert_ticks(u32 from, u32 to, i64 tick, const u8 *table, u64 length)
{
    answer got = { from, to, table == 0, length, tick };
    return got;
}

answer colliedash_convert_date(u32 from, u32 to, double first, double second, const u8 *table,
                               u64 length)
{
    answer got = { from, to, bits(first), bits(second), length ? table[0] : -1 };
    return got;
}

answer colliedash_convert_j2000(u32 from, u32 to, double seconds, const u8 *table, u64 length)
{
    answer got = { from, to, bits(seconds), length, length ? table[0] : -1 };
    return got;
}

answer colliedash_batch(u32 from, u32 to, const i64 *ticks, u64 many, i64 *into, u64 room,
                        const u8 *table, u64 length)
{
    answer got = { from, to, 1000 * many + room, length, length ? table[length - 1] : -1 };
    for (u64 i = 0; i < many && i < room; i++) into[i] = 2 * ticks[i];
    return got;
}
