/* Plain C for the same answers, as src/plain has them in Rust: products in 128 bits, a table
   decoded once. An answer is 0, or a refusal's number with its place and index told. */

typedef unsigned char u8;
typedef unsigned int u32;
typedef long i64;
typedef unsigned long u64;
typedef __int128 i128;
typedef unsigned __int128 u128;

/* The kit's compiler has no headers. */
void *malloc(u64);
void free(void *);
void *memcpy(void *, const void *, u64);

typedef struct { u32 number; u64 place; u64 index; } refusal;
typedef struct { i64 start; i64 length; u32 count; u32 degree; const i64 *coefficients; } table;
typedef struct { u32 number; u64 place; double first; double second; } date;

static const i128 L_G = 6969290134, D_G = (i128)10000000000 * 1000000000;
static const i128 L_B = 1550519768, D_B = 100000000000000000;
static const i64 DAY = 86400000000000;

static int valid(i64 tick) { return -6000000000000000000 <= tick && tick <= 6000000000000000000; }

static i64 nearest(i128 numerator, i128 denominator) {
    i128 sum = numerator + denominator / 2;
    return (i64)(sum / denominator - (sum % denominator < 0));
}

static i64 tcg_to_tt(i64 tcg) { return tcg + nearest(-L_G * tcg, D_G); }
static i64 tt_to_tcg(i64 tt) { return tt + nearest(L_G * tt, D_G - L_G); }
static i64 tcb_to_tdb(i64 tcb) { return tcb - 65500 + nearest(-L_B * tcb, D_B); }
static i64 tdb_to_tcb(i64 tdb) { return tdb + 65500 + nearest(L_B * (tdb + 65500), D_B - L_B); }

static i64 last_of(const table *t) { return t->start + t->count * t->length; }

static i64 scaled(i64 u, i64 b, int bits) {
    return (i64)(((i128)u * b + ((i128)1 << (bits - 1))) >> bits);
}

/* D at a tick of the table. */
static i64 delay(const table *t, i64 tt) {
    u64 since = tt - t->start, length = t->length, granule = since / length;
    if (granule >= t->count) granule = t->count - 1;
    const i64 *c = t->coefficients + granule * (t->degree + 1);
    u64 into = since - granule * length;
    i64 u = (i64)((((u128)into << 32) + length) / (2 * (u128)length)) - (1 << 30);
    i64 b1 = 0, b2 = 0;
    for (u32 k = t->degree; k > 0; k--) {
        i64 b = c[k] + scaled(u, b1, 29) - b2;
        b2 = b1;
        b1 = b;
    }
    i64 v = c[0] + scaled(u, b1, 30) - b2;
    return (v + (1 << 15)) >> 16;
}

static i64 tdb_at(const table *t, i64 tt) { return tt - delay(t, tt); }

static i64 clamp(i64 tick, i64 least, i64 most) {
    return tick < least ? least : tick > most ? most : tick;
}

/* The earliest tick whose TDB is at or after the one asked; whether the table reaches it. */
static int earliest(const table *t, i64 asked, i64 *found) {
    i64 last = last_of(t);
    i64 tt = clamp(asked + delay(t, clamp(asked, t->start, last)), t->start, last);
    i64 tdb = tdb_at(t, tt);
    for (; tdb < asked; tdb = tdb_at(t, ++tt))
        if (tt == last) return 0;
    for (; tt > t->start; tt--) {
        i64 before = tdb_at(t, tt - 1);
        if (before < asked) break;
        tdb = before;
    }
    *found = tt;
    return tt > t->start || tdb == asked;
}

/* A step from *tick: 0, or the refusal's number. */
typedef u32 step(const table *, i64 *tick);

static u32 by(i64 (*linear)(i64), i64 *tick) { return valid(*tick = linear(*tick)) ? 0 : 4; }
static u32 step_tcg_to_tt(const table *t, i64 *tick) { (void)t; return by(tcg_to_tt, tick); }
static u32 step_tt_to_tcg(const table *t, i64 *tick) { (void)t; return by(tt_to_tcg, tick); }
static u32 step_tcb_to_tdb(const table *t, i64 *tick) { (void)t; return by(tcb_to_tdb, tick); }
static u32 step_tdb_to_tcb(const table *t, i64 *tick) { (void)t; return by(tdb_to_tcb, tick); }
static u32 step_gps_to_tai(const table *t, i64 *tick) {
    (void)t;
    return valid(*tick += 19000000000) ? 0 : 4;
}
static u32 step_tai_to_tt(const table *t, i64 *tick) {
    (void)t;
    return valid(*tick += 32184000000) ? 0 : 4;
}
static u32 step_tdb_to_tt(const table *t, i64 *tick) { return earliest(t, *tick, tick) ? 0 : 6; }
static u32 step_tt_to_tdb(const table *t, i64 *tick) {
    if (*tick < t->start || last_of(t) < *tick) return 6;
    return valid(*tick = tdb_at(t, *tick)) ? 0 : 4;
}

/* Every entry by the steps in turn, first into a list of our own. A 4 counts the step that led
   outside, a 6 does not. */
static inline __attribute__((always_inline)) refusal batch(const i64 *ticks, u64 length,
                                                           i64 *answers, const table *t,
                                                           step *const *steps, u64 many) {
    i64 *converted = malloc(length * sizeof(i64));
    refusal told = {0, 0, 0};
    for (u64 i = 0; i < length && told.number == 0; i++) {
        i64 tick = ticks[i];
        if (!valid(tick)) told = (refusal){4, 0, i};
        for (u64 k = 0; k < many && told.number == 0; k++) {
            u32 number = steps[k](t, &tick);
            if (number != 0) told = (refusal){number, number == 4 ? k + 1 : k, i};
        }
        converted[i] = tick;
    }
    if (told.number == 0) memcpy(answers, converted, length * sizeof(i64));
    free(converted);
    return told;
}

#define BATCH(name, ...)                                                                           \
    refusal plain_##name(const i64 *ticks, u64 length, i64 *answers, const table *t) {             \
        static step *const steps[] = {__VA_ARGS__};                                                \
        return batch(ticks, length, answers, t, steps, sizeof steps / sizeof *steps);              \
    }
BATCH(tcg_to_tt, step_tcg_to_tt)
BATCH(tt_to_tcg, step_tt_to_tcg)
BATCH(tcb_to_tdb, step_tcb_to_tdb)
BATCH(tdb_to_tcb, step_tdb_to_tcb)
BATCH(tt_to_tdb, step_tt_to_tdb)
BATCH(tdb_to_tt, step_tdb_to_tt)
BATCH(gps_to_tcb, step_gps_to_tai, step_tai_to_tt, step_tt_to_tdb, step_tdb_to_tcb)

date plain_write_date(i64 tick) {
    if (!valid(tick)) return (date){4, 0, 0, 0};
    i64 since = tick + 32184000000, days = since / DAY, rest = since % DAY;
    if (rest < 0) { rest += DAY; days--; }
    return (date){0, 0, 2443144.5 + (double)days, (double)rest / (double)DAY};
}
