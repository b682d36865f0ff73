"""A host in Python: it judges a table, converts, splits a date two ways, runs a batch, reads and
writes UTC, compares the table with the next season's, and shows four refusals.

Its arguments are the library as a shared object, the table's file, that of the leap seconds and
that of the next season's table.
"""

import sys
from ctypes import CDLL, POINTER, Structure
from ctypes import c_char_p, c_double, c_int64, c_size_t, c_uint32, c_uint64

GPS, TAI, TT, TCG, TDB, TCB, UTC = range(1, 8)


class Answer(Structure):
    _fields_ = [
        ("number", c_uint32),
        ("steps", c_uint32),
        ("place", c_uint64),
        ("index", c_uint64),
        ("tick", c_int64),
    ]


class Date(Structure):
    _fields_ = [
        ("number", c_uint32),
        ("place", c_uint64),
        ("first", c_double),
        ("second", c_double),
    ]


class Utc(Structure):
    _fields_ = [
        ("number", c_uint32),
        ("steps", c_uint32),
        ("place", c_uint64),
        ("day", c_int64),
        ("ticks", c_int64),
    ]


class Table(Structure):
    _fields_ = [
        ("number", c_uint32),
        ("count", c_uint32),
        ("degree", c_uint32),
        ("place", c_uint64),
        ("start", c_int64),
        ("length", c_int64),
    ]


class Changes(Structure):
    _fields_ = [
        ("number", c_uint32),
        ("which", c_uint32),
        ("place", c_uint64),
        ("entries", c_uint64),
    ]


# As include/colliedash.h declares them: a slice is a pointer and its length.
desk = CDLL(sys.argv[1])
BYTES = [c_char_p, c_size_t]
TICKS = [POINTER(c_int64), c_size_t]
for name, answer, arguments in [
    ("judge", Table, BYTES),
    ("compare_tables", Changes, BYTES + BYTES + TICKS),
    ("write_date", Date, [c_int64]),
    ("convert_ticks", Answer, [c_uint32, c_uint32, c_int64] + BYTES),
    ("convert_date", Answer, [c_uint32, c_uint32, c_double, c_double] + BYTES),
    ("convert_utc", Answer, [c_uint32, c_uint32, c_int64, c_int64] + TICKS + BYTES),
    ("write_utc", Utc, [c_uint32, c_uint32, c_int64] + TICKS + BYTES),
    ("batch", Answer, [c_uint32, c_uint32] + TICKS + TICKS + BYTES),
]:
    function = getattr(desk, "colliedash_" + name)
    function.restype, function.argtypes = answer, arguments


def refused(what, answer):
    print(f"{what}: refused {answer.number}, place {answer.place}, entry {answer.index}")


with open(sys.argv[2], "rb") as file:
    table = file.read()
lent = (table, len(table))

# A comment's line, then a pair a line.
with open(sys.argv[3]) as file:
    numbers = [int(number) for line in list(file)[1:] for number in line.split()]
leaps = ((c_int64 * len(numbers))(*numbers), len(numbers))

with open(sys.argv[4], "rb") as file:
    season = file.read()

judged = desk.colliedash_judge(*lent)
print(
    f"table: number {judged.number}, {judged.count} granules of {judged.length} ticks, "
    f"degree {judged.degree}, from TT {judged.start}"
)

# No step of this path crosses the table, so none is lent.
answer = desk.colliedash_convert_ticks(TCB, TDB, 100000000000000000, None, 0)
print(f"TCB 100000000000000000 is TDB {answer.tick}, {answer.steps} step")

answer = desk.colliedash_convert_date(GPS, TDB, 2461112.5, 0.75, *lent)
print(f"GPS 2461112.5 + 0.75 is TDB {answer.tick}, {answer.steps} steps")

date = desk.colliedash_write_date(answer.tick)
print(f"which is the date {date.first:.1f} + {date.second:.15f}")

# One moment, half a tick past 43169793539062, split two ways: it is one tick.
answer = desk.colliedash_convert_date(TT, TT, 2443145 + 3 / 262144, 3 / 262144, None, 0)
print(f"TT 2443145 and 3/262144, + 3/262144, is {answer.tick}")
answer = desk.colliedash_convert_date(TT, TT, 2443144.5, 0.5 + 3 / 131072, None, 0)
print(f"TT 2443144.5 + 1/2 and 3/131072 is {answer.tick}")

# Who buzzed first? Three crews, all tagged by GPS.
buzzes = (c_int64 * 3)(1600000000000000007, 1600000000000000000, 1600000000250000000)
answers = (c_int64 * 3)(-1, -1, -1)
answer = desk.colliedash_batch(GPS, TCB, buzzes, 3, answers, 3, *lent)
print(f"batch of GPS to TCB, {answer.steps} steps:", *answers)

# The leap second of 2016-12-31. No table is crossed on the way to TT.
answer = desk.colliedash_convert_utc(UTC, TT, 57753, 86400000000000, *leaps, None, 0)
print(f"UTC day 57753, ticks 86400000000000 is TT {answer.tick}, {answer.steps} step")

utc = desk.colliedash_write_utc(TT, UTC, answer.tick + 1000000000, *leaps, None, 0)
print(f"a second later it is UTC day {utc.day}, ticks {utc.ticks}, {utc.steps} step")

# No other day near it has one.
refused(
    "UTC day 57754, ticks 86400000000000",
    desk.colliedash_convert_utc(UTC, TT, 57754, 86400000000000, *leaps, None, 0),
)

refused("TT 0 to TDB", desk.colliedash_convert_ticks(TT, TDB, 0, *lent))

# One bad entry, and nothing is written.
buzzes[2] = 2**63 - 1
answers[0] = -1
refused("batch", desk.colliedash_batch(GPS, TCB, buzzes, 3, answers, 3, *lent))
print(f"its first answer is still {answers[0]}")

# What changed from this season's table to the next? A table has 360 granules at most.
entries = (c_int64 * (3 * 360))()
both = (*lent, season, len(season))
changes = desk.colliedash_compare_tables(*both, entries, len(entries))
print(f"next season: {changes.entries} of {judged.count} granules differ")
titles = ("granule", "largest", "sum", "largest in ticks", "sum in ticks")
print("{:>7}{:>9}{:>6}{:>18}{:>14}".format(*titles))
for i in range(changes.entries):
    granule, largest, total = entries[3 * i : 3 * i + 3]
    print(f"{granule:7}{largest:9}{total:6}{largest / 65536:18.6f}{total / 65536:14.6f}")

# Room for two entries where there are three, and nothing is written.
changes = desk.colliedash_compare_tables(*both, entries, 6)
print(
    f"into a list of 6 numbers: refused {changes.number}, place {changes.place}, "
    f"table {changes.which}"
)
