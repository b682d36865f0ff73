/*
The fourth part, two tables: the function tells in its answer what it was called
with. The first byte of either table asks for a misdeed.
*/

typedef unsigned char u8;
typedef unsigned int u32;
typedef unsigned long u64;
typedef long i64;
typedef struct { u32 number; u32 which; u64 place; u64 entries; } changes;

/* A table's length, its first byte and its last; a null one is 2^32 - 1. */
static u32 told(const u8 *table, u64 length)
{
    if (!table) return 0xffffffff;
    return (u32)length << 16 | (u32)(length ? table[0] : 0) << 8 | (length ? table[length - 1] : 0);
}

static void misdeed(u8 *table, u64 length)
{
    if (length && table[0] == 'c') table[length - 1] ^= 1;
    if (length && table[0] == '<') table[-1] ^= 1;
    if (length && table[0] == '>') table[length + 511] ^= 1;
}

changes colliedash_compare_tables(const u8 *first, u64 first_length, const u8 *second,
                                  u64 second_length, i64 *entries, u64 room)
{
    u64 last = !entries ? 1 : room ? (u64)entries[room - 1] : 0;
    changes got = { told(first, first_length), told(second, second_length), last, room };
    /* Two tables that share memory would be one. */
    if (first && first == second) got.entries += 1000000;
    for (u64 i = 0; i < room; i++) entries[i] = -(i64)i - 1;
    if (first_length && first[0] == '[') entries[-1] = 0;
    if (first_length && first[0] == ']') entries[room] = 0;
    misdeed((u8 *)first, first_length);
    misdeed((u8 *)second, second_length);
    return got;
}
