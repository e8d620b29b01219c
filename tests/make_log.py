#!/usr/bin/env python3
"""Makes the long log, on standard output: the same bytes every time.

It knows nothing of the answers. Where a part remembers cells or numbers, that is to aim its next line.
"""

import struct
import sys

SEED = 8
HIGH = 2**32 - 1
ALL_ZONES, ALL_CARS = 16, 64
ROOM = 64


class Dice:
    """A generator of its own, so that no version of Python changes the log."""

    def __init__(self, seed):
        self.state = seed

    def below(self, n):
        self.state = (self.state * 6364136223846793005 + 1442695040888963407) % 2**64
        return (self.state >> 33) * n >> 31

    def between(self, low, high):
        return low + self.below(high - low + 1)

    def pick(self, choices):
        return choices[self.below(len(choices))]


dice = Dice(SEED)
out = sys.stdout.buffer


def raw(line):
    out.write(line + b"\n")


def put(*fields):
    raw("\t".join(map(str, fields)).encode("ascii"))


def hexed(bits):
    return format(bits, "08X")


def bits_of(value):
    return struct.unpack(">I", struct.pack(">f", value))[0]


def at(value):
    return hexed(bits_of(value))


def just_below(value):
    return hexed(bits_of(value) - 1)


def just_above(value):
    return hexed(bits_of(value) + 1)


def in_cell(cell):
    """A coordinate in the cell: at its start, somewhere in it, or the last float before the next cell. Minus zero is at 0."""
    way = dice.below(4)
    if way == 0:
        return "80000000" if cell == 0 and dice.below(2) else at(cell)
    if way == 1:
        return just_below(cell + 1)
    return at(cell + dice.below(1024) / 1024)


def along(cell, side):
    """A coordinate in the cell; in the last one of the side often at its end."""
    return at(side) if cell == side - 1 and dice.below(2) else in_cell(cell)


# ---- lines that get 14

MALFORMED = [
    b"", b" ", b"\t", b"\t\t", b"\r", b"\0", b"\x0b", b"\x7f", b"\x80", b"\xff", b"\xef\xbb\xbfR\t1", b"-", b"0",
    b"14", b"#", b"M", b"A", b"D", b"P", b"L", b"S", b"R", b"M\t", b"R\t", b"S\t", b"?\t14", b"R0", b"RR\t1",
    b"\x80R\t1", b"\0R\t1", b"m\t2\t4\t4", b"a\t1\t0\t0\t1\t1", b"d\t1", b"p\t1\t3F800000\t3F800000", b"l\t1",
    b"s\t3F800000\t3F800000", b"r\t1", b"V\t2", b"W\t1", b"Q\t1", b"B\t1", b"C\t1", b"E\t1", b"X\t1", b"Z\t1",
    b"@\t1", b"[\t1", b"N\t2\t4\t4", b"M\t2\t4", b"M\t2\t4\t4\t4", b"M\t2\t4\t4\t", b"M\t\t2\t4\t4", b"\tM\t2\t4\t4",
    b"M\t2\t\t4", b"M\t2\t4\t", b"M 2 4 4", b"M\t2 4 4", b"M\t2\t4\t4 ", b" M\t2\t4\t4", b"M\t 2\t4\t4",
    b"M\t2\t4\t4\r", b"M\t2\t4\t4\0", b"M\t02\t4\t4", b"M\t2\t04\t4", b"M\t2\t4\t04", b"M\t2\t4\t+4", b"M\t2\t4\t-4",
    b"M\t2\t4\t4.0", b"M\t2\t4\t0x4", b"M\t2\t4\t4294967296", b"M\t4294967298\t4\t4", b"M\t2\t4294967300\t4",
    b"M\t2\t4\t00", b"M\t2\t4\tA", b"M\t2,4\t4", b"A\t1\t0\t0\t1", b"A\t1\t0\t0\t1\t1\t1", b"A\t1\t0\t0\t1\t",
    b"A\t1\t0\t0\t01\t1", b"A\t1\t0\t0\t1\t4294967297", b"A\t1\t00\t0\t1\t1", b"A\t1\t4294967296\t0\t1\t1",
    b"A\t4294967296\t0\t0\t1\t1", b"A\t1\t0\t0\t1\t99999999999", b"A\t1\t0\t-0\t1\t1", b"A\t1\t0\t0\t1\t1\r",
    b"A\t1\t0\t0\t1\xb9\t1", b"A\t1\t0\t0\t1\x00\t1", b"D\t00", b"D\t01", b"D\t4294967296", b"D\t4294967297",
    b"D\t10000000000", b"D\t00000000001", b"D\t1\t1", b"D\t1\t", b"D\t1\r", b"D 1", b"D\t18446744073709551616",
    b"D\t18446744073709551617", b"D\t1e0", b"D\t1:", b"D\t1/", b"D\t/", b"D\t:", b"D\t\xb2", b"P\t1\t3F800000",
    b"P\t1\t3F800000\t3F800000\t0", b"P\t1\t3F800000\t3F800000\t", b"P\t\t3F800000\t3F800000",
    b"P\t1\t3f800000\t3F800000", b"P\t1\t3F800000\t3f800000", b"P\t1\t3F80000\t3F800000", b"P\t1\t3F800000\t3F80000",
    b"P\t1\t3F8000000\t3F800000", b"P\t1\t3F800000\t03F800000", b"P\t1\t3F80000G\t3F800000",
    b"P\t1\t3F80000@\t3F800000", b"P\t1\t3F80000:\t3F800000", b"P\t1\t3F80000/\t3F800000",
    b"P\t1\t3F80000`\t3F800000", b"P\t1\t0x3F8000\t3F800000", b"P\t1\t1\t1", b"P\t1\t1.0\t1.0", b"P\t1\t\t3F800000",
    b"P\t1\t3F800000\t", b"P\t1\t+3F80000\t3F800000", b"P\t1\t 3F80000\t3F800000", b"P\t1\t3F8_0000\t3F800000",
    b"P\t1\t3F800000\t3F800000\r", b"P\t01\t3F800000\t3F800000", b"P\t4294967297\t3F800000\t3F800000",
    b"P\t1\t3F800000 3F800000", b"P\t1\t3F80000\xb0\t3F800000", b"P\t3F800000\t3F800000\t1", b"L\t00", b"L\t01",
    b"L\t-1", b"L\t4294967296", b"L\t4294967297", b"L\t1\t1", b"L\t1,2", b"L\t1 ", b"L\t\x31\x00", b"L\t1\r",
    b"S\t3F800000", b"S\t3F800000\t3F800000\t1", b"S\t3f800000\t3F800000", b"S\t3F800000\t3F8000000",
    b"S\t3F800000\t3F80000", b"S\t3F800000\t\t3F800000", b"S\t\t3F800000\t3F800000", b"S\t3F800000\t3F800000\t",
    b"S 3F800000 3F800000", b"S\t3F800000\t3F800000\r", b"R\t00", b"R\t01", b"R\t001", b"R\t4294967296",
    b"R\t4294967297", b"R\t9999999999", b"R\t01234567890", b"R\t12345678901", b"R\t1\t", b"R\t1\t1", b"R\t\t1",
    b"\tR\t1", b"R\t1 ", b"R\t 1", b"R  1", b"R\t1\r", b"R\r\t1", b"R\t1\x0c", b"R\t1\x1a", b"R\t\xd9\xa1", b"R\x0b1",
    b"R,1", b"R\t-",
]


def long_lines():
    """Lengths about the limit and about the sizes of buffers, a record after each to see that it is answered next."""
    record = b"R\t1"
    limits = [56, 57, 79, 80, 81, 82, 83, 127, 128, 160, 161, 162, 163, 243, 255, 256, 257, 511, 512]
    for length in limits + [1024, 4095, 4096, 4097, 8192, 10000]:
        lines = [b"x" * (length - 3) + record, b"x" * length, record + b" " * (length - 3)]
        for line in lines if length < 1000 else lines[:1]:
            raw(line)
            put("R", 1)
    for length in 80, 81, 82, 83, 84, 85, 160, 164, 5000:
        raw(b"\t" * length)
        raw(b"R\t" + b"0" * (length - 3) + b"1")
        raw(b"0" * (length - 2) + b"\t1")
        put("R", 1)
    raw((b"y" * 80 + record) * 50)
    raw((b"y" * 81 + record) * 50)
    put("R", 1)


def malformed_lines():
    """In a town with a zone and a car, which none of them changes."""
    put("M", 2, 4, 4)
    put("A", 1, 0, 0, 5, 5)
    put("P", 1, at(1), at(1))
    for index, line in enumerate(MALFORMED):
        raw(line)
        if index % 4 == 0:
            put("R", 1)
    long_lines()
    put("R", 1)
    put("S", at(1), at(1))
    put("L", 1)


# ---- maps

BEYOND = [
    (6, 1, 1), (7, 1, 1), (31, 1, 1), (32, 1, 1), (33, 1, 1), (63, 1, 1), (64, 1, 1), (255, 1, 1), (256, 1, 1),
    (HIGH, 1, 1), (0, 0, 1), (0, 1, 0), (5, 0, 1), (5, 1, 0), (2, 0, 0), (6, 0, 0), (6, 9, 9), (0, 257, 1),
    (0, 1, 257), (1, 129, 1), (1, 1, 129), (2, 65, 1), (2, 1, 65), (3, 33, 1), (3, 1, 33), (4, 17, 1), (4, 1, 17),
    (5, 9, 1), (5, 1, 9), (5, 2**27, 1), (5, 1, 2**27), (5, 2**27 + 1, 1), (5, 1, 2**27 + 1), (1, 2**31, 1),
    (1, 2**31 + 1, 2), (2, 2**30 + 4, 4), (2, 4, 2**30 + 4), (3, 2**29 + 1, 1), (4, 2, 2**28 + 2), (0, HIGH, 1),
    (0, 1, HIGH), (0, HIGH, HIGH), (5, HIGH, HIGH), (HIGH, HIGH, HIGH), (HIGH, 0, 0), (2, 65, 4), (2, 4, 65),
    (5, 9, 2), (5, 2, 9),
]
TOO_LARGE = [
    (0, 65, 1), (0, 1, 65), (0, 256, 256), (0, 64, 65), (0, 65, 64), (1, 33, 1), (1, 1, 33), (1, 128, 128),
    (2, 17, 1), (2, 1, 17), (2, 64, 64), (3, 9, 1), (3, 1, 9), (3, 32, 32), (4, 5, 1), (4, 1, 5), (4, 16, 16),
    (5, 3, 1), (5, 1, 3), (5, 8, 8), (5, 8, 1), (5, 1, 8),
]


def before_any_map():
    """Other records get 3 before the first accepted M, whatever else is wrong with them; a bad line gets 14."""
    every = [
        ("A", 1, 0, 0, 1, 1), ("A", 16, 0, 0, 0, 0), ("A", 1, HIGH, 0, 1, 1), ("D", 1), ("D", 16),
        ("P", 1, at(1), at(1)), ("P", 64, at(1), at(1)), ("P", 1, "7FC00000", at(1)), ("L", 1), ("L", 64),
        ("S", at(1), at(1)), ("S", "80000001", at(1)), ("R", 1), ("R", 16), ("R", HIGH),
    ]
    for record in every:
        put(*record)
    for line in MALFORMED[::7]:
        raw(line)
    for shape in BEYOND[::5] + TOO_LARGE[::5]:
        put("M", *shape)
    for record in every:
        put(*record)


def refused_maps():
    """A refused M changes nothing; an accepted one, also of the same shape, opens an empty town."""
    put("M", 3, 3, 2)
    put("A", 2, 1, 1, 9, 9)
    put("P", 5, at(4), at(4))
    for index, shape in enumerate(BEYOND + TOO_LARGE):
        put("M", *shape)
        if index % 6 == 0:
            put("R", 2)
            put("P", 5, in_cell(index % 24), in_cell(4))
    for _ in range(2):
        put("R", 2)
        put("S", at(4), at(4))
        put("L", 5)
        put("M", 3, 3, 2)
        put("R", 2)
        put("S", at(4), at(4))
        put("L", 5)
        put("A", 2, 1, 1, 9, 9)
        put("P", 5, at(4), at(4))


# ---- the order of the checks, and numbers at the edge


def worst_first():
    """Each record with two faults or more: the lower in the table is answered."""
    put("M", 2, 3, 2)
    put("A", 3, 2, 1, 6, 5)
    put("P", 9, at(3), at(3))
    off, nan = just_above(12), "7FC00000"
    for record in [
        ("A", 16, 0, 0, 0, 0), ("A", 16, 0, 0, 1, 1), ("A", 17, HIGH, HIGH, HIGH, HIGH), ("A", HIGH, 0, 0, 1, 1),
        ("A", 3, 0, 0, 0, 1), ("A", 3, HIGH, 0, 1, 1), ("A", 3, 0, 0, 1, 1), ("D", 16), ("D", HIGH), ("D", 2),
        ("R", 16), ("R", HIGH), ("R", 2), ("P", 64, nan, nan), ("P", 64, off, at(1)), ("P", 64, at(1), at(1)),
        ("P", HIGH, nan, at(1)), ("P", 9, nan, nan), ("P", 9, off, at(1)), ("P", 9, at(1), just_above(8)), ("P", 8, off, off),
        ("L", 64), ("L", HIGH), ("L", 8), ("S", nan, off), ("S", off, at(1)), ("S", at(1), off),
    ]:
        put(*record)
        put("R", 3)
    for number in 15, 16, 63, 64, 65, 255, 256, 65536, 2**31, 2**32 - 16, HIGH:
        put("A", number, 0, 0, 2, 2)
        put("D", number)
        put("R", number)
        put("P", number, at(0), at(0))
        put("L", number)


def rectangles_at_the_edge():
    """9 where a side is 0 or the rectangle passes the town, by true sums; the largest that stand."""
    for k, P, Q in (2, 4, 4), (0, 5, 3), (5, 2, 1):
        W, H = P * 2**k, Q * 2**k
        put("M", k, P, Q)
        for index, (first, span) in enumerate([
            (0, 0), (0, 1), (1, 0), (W, 0), (W, 1), (W - 1, 1), (W - 1, 2), (0, W), (0, W + 1), (1, W), (1, W - 1),
            (HIGH, 0), (HIGH, 1), (HIGH, 2), (1, HIGH), (2, HIGH), (HIGH, HIGH), (2**31, 2**31), (2**31 + 1, 2**31),
            (HIGH - 3, 8), (0, HIGH), (0, 2**31), (2**16, 2**16),
        ]):
            put("A", index % 16, first, 0, span, H)
            put("D", index % 16)
            first, span = (v - W + H if v in (W, W - 1, W + 1) else v for v in (first, span))
            put("A", index % 16, 0, first, W, span)
            put("R", index % 16)
            put("D", index % 16)


COORDINATES = [
    0x00000000, 0x00000001, 0x00000002, 0x007FFFFF, 0x00800000, 0x00800001, 0x33800000, 0x3EFFFFFF, 0x3F000000,
    0x3F7FFFFF, 0x3F800000, 0x3F800001, 0x3FFFFFFF, 0x40000000, 0x403FFFFF, 0x40400000, 0x407FFFFF, 0x80000000,
    0x80000001, 0x807FFFFF, 0x80800000, 0xBF000000, 0xBF800000, 0xC0000000, 0xC2800000, 0xFF7FFFFF, 0x437FFFFF,
    0x43800000, 0x44800000, 0x4F7FFFFF, 0x4F800000, 0x4F800001, 0x5F000000, 0x5F800000, 0x7F000000, 0x7F7FFFFF,
    0x7F800000, 0xFF800000, 0x7F800001, 0x7FBFFFFF, 0x7FC00000, 0x7FC00001, 0x7FFFFFFF, 0xFF800001, 0xFFC00000,
    0xFFFFFFFF, 0x00000040,
]


def coordinates_at_the_edge():
    """Zeros, the smallest and largest floats, no numbers, and those about the sides, on towns whose sides differ."""
    for k, P, Q in (0, 1, 1), (0, 3, 2), (2, 4, 3), (5, 2, 1), (4, 3, 4), (0, 64, 63):
        W, H = P * 2**k, Q * 2**k
        put("M", k, P, Q)
        put("A", 0, 0, 0, 1, 1)
        put("A", 1, W - 1, H - 1, 1, 1)
        put("A", 2, 0, 0, W, H)
        sides = [bits_of(side) + step for side in (W, H) for step in (-2, -1, 0, 1)]
        for index, bits in enumerate(COORDINATES + sides):
            put("P", index % 3, hexed(bits), just_below(H))
            put("P", index % 3, just_below(W), hexed(bits))
            put("S", hexed(bits), hexed(bits))
            if index % 5 == 0:
                put("R", index % 3)


def outer_walls():
    """Cars at W and at H exactly, the float before and the float after, with zones that end at the walls or a cell before
    them, laid before the cars come and over cars that stand there."""
    for k, P, Q in (2, 3, 2), (0, 1, 1), (0, 5, 3), (1, 3, 7), (3, 8, 8), (5, 2, 1):
        W, H = P * 2**k, Q * 2**k
        put("M", k, P, Q)
        ends = [(0, 0, W, H), (W - 1, 0, 1, H), (0, H - 1, W, 1), (0, 0, W - 1, H), (0, 0, W, H - 1)]
        for zone, r in enumerate(ends):
            put("A", zone, *r)
        for turn in range(6):
            car, x, y = turn % 4, in_cell(dice.below(W)), in_cell(dice.below(H))
            for east in at(W), just_below(W), at(W), just_above(W), at(H):
                put("P", car, east, y)
            for north in at(H), just_below(H), at(H), just_above(H), at(W):
                put("P", car, x, north)
            put("P", car, at(W), at(H))
            put("S", at(W), y)
            put("S", x, at(H))
            put("R", turn % 5)
        put("P", 0, at(W), y)
        put("P", 1, x, at(H))
        for zone, r in enumerate(ends):
            put("A", 5 + zone, *r)
            put("R", 5 + zone)
        for car in range(5):
            put("L", car)


# ---- room


def full_zones():
    """Sixteen zones over one another, then all cars in them, then out again."""
    put("M", 3, 4, 4)
    for zone in range(ALL_ZONES):
        put("A", zone, 15 - zone, 15 - zone, 2 + zone, 2 + zone)
    put("A", 16, 0, 0, 1, 1)
    put("A", 0, 0, 0, 1, 1)
    put("P", 0, at(15), at(15))
    put("P", 0, at(16), at(16))
    put("P", 0, at(17), at(16))
    put("S", at(15.5), at(16.5))
    for car in range(ALL_CARS):
        put("P", 63 - car, in_cell(dice.between(12, 17)), in_cell(dice.between(12, 17)))
    put("P", 64, at(15), at(15))
    for zone in range(ALL_ZONES):
        put("R", zone)
    for car in range(ALL_CARS):
        put("P", car, in_cell(15), in_cell(15))
    put("R", 0)
    put("D", 7)
    put("R", 7)
    put("A", 7, 14, 14, 4, 4)
    put("R", 7)
    for car in range(0, ALL_CARS, 3):
        put("L", car)
    put("R", 15)


def full_entries():
    """2,048 entries to the last, 12 past them; what a removed zone had is free again, however often."""
    put("M", 0, 64, 64)
    for line in [
        (0, 0, 0, 64, 64), (0, 0, 0, 64, 33), (0, 0, 0, 33, 63), (0, 0, 0, 64, 32), (1, 0, 0, 1, 1),
        (1, 0, 0, 64, 64), (1, 64, 0, 1, 1), (0, 0, 0, 64, 64),
    ]:
        put("A", *line)
    for turn in range(6):
        put("D", turn % 2)
        put("A", 1 - turn % 2, turn, 31, 50, 40)
        put("A", 1 - turn % 2, turn, 31, 58, 33)
        put("A", 1 - turn % 2, turn, 31, 32, 64 - 31)
        put("A", 2 + turn, 0, 0, 31, 32)
        put("A", 2 + turn, 0, 0, 32, 31)
        put("A", 8 + turn, 63, 63, 1, 1)
        put("D", 2 + turn)
        put("D", 1 - turn % 2)
        put("A", 1 - turn % 2, 0, 0, 64, 31)
        put("A", 14, 0, 0, 9, 7)
        put("A", 15, 0, 0, 1, 1)
        put("A", 13, 0, 0, 1, 1)
        put("D", 8 + turn)
        put("A", 13, 0, 0, 1, 1)
        put("D", 13)
        put("D", 14)
        put("D", 15)
    for k in range(1, 6):
        put("M", k, ROOM >> k, ROOM >> k)
        odd_sides()


def odd_sides():
    """Large zones with odd corners until they do not fit, some taken away, others tried."""
    put("P", 4, in_cell(20), in_cell(40))
    for turn in range(22):
        for zone in range(turn % 4, ALL_ZONES, 4):
            a, b = 2 * dice.below(6) + 1, 2 * dice.below(6) + 1
            put("A", zone, a, b, ROOM - a - 2 * dice.below(9) - 1, ROOM - b - 2 * dice.below(9) - 1)
        put("D", dice.below(ALL_ZONES))
        if turn % 5 == 0:
            put("S", in_cell(20), in_cell(40))
            put("R", dice.below(ALL_ZONES))


# ---- the request's own numbers, as far as a log can ask for them


def request_numbers():
    put("M", 2, 4, 4)
    put("P", 1, at(8), at(8))
    put("P", 1, at(9), at(8))
    put("P", 2, at(1), at(1))
    put("P", 2, at(5), at(1))
    put("A", 0, 5, 2, 8, 12)
    put("A", 1, 0, 0, 16, 16)
    put("A", 2, 0, 0, 1, 1)
    put("A", 3, 8, 0, 8, 1)
    put("A", 4, 8, 0, 9, 1)
    put("A", 4, HIGH, 0, 1, 1)
    put("S", at(10), at(11))
    put("M", 0, 3, 2)
    put("A", 0, 1, 0, 2, 2)
    put("M", 5, 8, 1)
    put("M", 5, 9, 1)


# ---- towns in play


class Play:
    """One town under play: the cells where the cars were last sent."""

    def __init__(self, k, P, Q):
        self.L, self.W, self.H = 2**k, P * 2**k, Q * 2**k
        self.cars = {}
        put("M", k, P, Q)

    def send(self, car, x, y):
        self.cars[car] = (x, y)
        put("P", car, along(x, self.W), along(y, self.H))

    def placed(self):
        return dice.pick(sorted(self.cars)) if self.cars else self.fresh()

    def fresh(self):
        car = dice.below(12) if dice.below(4) else dice.below(ALL_CARS)
        self.send(car, dice.below(self.W), dice.below(self.H))
        return car

    def step(self):
        car = self.placed()
        x, y = self.cars[car]
        x, y = x + dice.between(-1, 1), y + dice.between(-1, 1)
        self.send(car, min(max(x, 0), self.W - 1), min(max(y, 0), self.H - 1))

    def stay(self):
        car = self.placed()
        self.send(car, *self.cars[car])

    def gate(self):
        """Through a gate between blocks: the place in the block stays the same."""
        car = self.placed()
        x, y = self.cars[car]
        column, row = dice.below(self.W // self.L), dice.below(self.H // self.L)
        self.send(car, x % self.L + self.L * column, y % self.L + self.L * row)

    def wall(self):
        """Off the map, or at the end of a side, the other one's too, on one axis or both."""
        over = ["80000001", "BF800000", "FF800000", "7F800000", "7FC00000"]
        over += [at(self.W), at(self.H), just_above(self.W), just_above(self.H)]
        x, y = in_cell(dice.below(self.W)), in_cell(dice.below(self.H))
        way = dice.below(3)
        if way != 1:
            x = dice.pick(over)
        if way != 0:
            y = dice.pick(over)
        put(*dice.pick([("P", self.placed()), ("S",)]), x, y)

    def search(self):
        put("S", along(dice.below(self.W), self.W), along(dice.below(self.H), self.H))

    def search_car(self):
        x, y = self.cars[self.placed()]
        put("S", along(x, self.W), along(y, self.H))

    def roster(self):
        put("R", dice.below(ALL_ZONES + 1))

    def leave(self):
        car = self.placed() if dice.below(3) else dice.below(ALL_CARS + 2)
        self.cars.pop(car, None)
        put("L", car)

    def add(self):
        way = dice.below(5)
        a, b = dice.below(self.W), dice.below(self.H)
        w, h = dice.between(1, self.W - a), dice.between(1, self.H - b)
        if way == 0:  # whole blocks
            a, b = a - a % self.L, b - b % self.L
            w, h = self.L * dice.between(1, (self.W - a) // self.L), self.L * dice.between(1, (self.H - b) // self.L)
        elif way == 1:  # small
            w, h = min(w, dice.between(1, 3)), min(h, dice.between(1, 3))
        elif way == 2 and dice.below(2):  # past the side
            w += self.W - a
        put("A", dice.below(ALL_ZONES), a, b, w, h)

    def remove(self):
        put("D", dice.below(ALL_ZONES + 1))

    def run(self, lines):
        for _ in range(3):
            self.fresh()
        for _ in range(6):
            self.add()
        ways = [self.step] * 14 + [self.gate] * 8 + [self.fresh] * 5 + [self.stay] * 3 + [self.wall] * 2
        ways += [self.search] * 3 + [self.search_car] * 3 + [self.roster] * 9
        ways += [self.add] * 6 + [self.remove] * 2 + [self.leave] * 3
        for _ in range(lines):
            dice.pick(ways)()
        for zone in range(ALL_ZONES):
            if dice.below(3) == 0:
                put("R", zone)


def towns():
    """Every k, from one block to the widest and highest town, square or not."""
    for k in range(6):
        most = ROOM >> k
        shapes = [(1, 1), (most, most), (most, 1), (1, most)]
        shapes += [(dice.between(1, most), dice.between(1, most)) for _ in range(3)]
        for P, Q in shapes:
            Play(k, P, Q).run(60)


def two_blocks():
    """Gates between the four squares of a small town, with zones over one side, both sides and neither."""
    for k in range(1, 6):
        town = Play(k, 2, 2)
        L = town.L
        put("A", 0, 0, 0, L, L)
        put("A", 1, L, L, L, L)
        put("A", 2, 0, 0, 2 * L, 2 * L)
        put("A", 3, 1, 0, L, L)
        put("A", 4, L - 1, L - 1, 2, 2)
        put("A", 5, 0, L, 2 * L, 1)
        for turn in range(8):
            x, y = dice.below(L), dice.below(L)
            for car, (right, up) in enumerate([(0, 0), (1, 0), (1, 1)]):
                town.send(car, x + right * L, y + up * L)
            town.send(0, x + L, y + L)
            town.send(1, x, y + L)
            town.send(2, x, y)
            put("R", turn % 6)


def main():
    before_any_map()
    request_numbers()
    worst_first()
    rectangles_at_the_edge()
    coordinates_at_the_edge()
    outer_walls()
    refused_maps()
    malformed_lines()
    full_zones()
    full_entries()
    two_blocks()
    towns()
    out.write(b"R\t0")  # the last line has no feed


if __name__ == "__main__":
    main()
