/*
Half of an archive to try the bridge with: each function tells in its answer
what it was called with. The first byte of a table, or the first number of a
list, asks for a misdeed.
*/

typedef unsigned char u8;
typedef unsigned int u32;
typedef unsigned long u64;
typedef long i64;
typedef struct { u32 number; u32 steps; u64 place; u64 index; i64 tick; } answer;
typedef struct { u32 number; u32 count; u32 degree; u64 place; i64 start; i64 length; } table;

extern void _exit(int);

table colliedash_judge(const u8 *bytes, u64 length)
{
    u8 first = length ? bytes[0] : 0, last = length ? bytes[length - 1] : 0;
    table got = { bytes == 0, (u32)length, first, last, -1, -9223372036854775807 - 1 };
    if (first == 'c') ((u8 *)bytes)[length - 1] ^= 1;
    if (first == '<') ((u8 *)bytes)[-1] ^= 1;
    if (first == '>') ((u8 *)bytes)[length] ^= 1;
    if (first == 'x') *(volatile int *)0 = 1;
    if (first == 'e') _exit(7);
    while (first == 'l') *(volatile u8 *)&first = 'l';
    return got;
}

table colliedash_read_table(const u8 *bytes, u64 length, i64 *into, u64 room)
{
    table got = { into == 0, (u32)room, (u32)length, room ? (u64)into[room - 1] : 0, 2, 3 };
    for (u64 i = 0; i < room; i++) into[i] = -(i64)i - 1;
    if (length && bytes[0] == '<') into[-64] = 0;
    if (length && bytes[0] == '>') into[room + 63] = 0;
    return got;
}

answer colliedash_write_table(i64 start, i64 length, u32 count, u32 degree, const i64 *list,
                              u64 many, u8 *image, u64 size)
{
    u64 last = many ? (u64)list[many - 1] : 0;
    answer got = { count, degree, last, 1000 * many + size, start - length };
    for (u64 i = 0; i < size; i++) image[i] ^= (u8)i;
    if (many && list[0] == 'c') ((i64 *)list)[many - 1]++;
    if (many && list[0] == '>') ((i64 *)list)[many] = 0;
    return got;
}
