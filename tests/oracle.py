#!/usr/bin/env python3
"""The log program by brute force: a log on standard input, its answers on standard output.

It keeps the standing rectangles and the last accepted bits of each car, and nothing else. No square has a list and
no zone a roster: each answer is worked out afresh, from the words of the request.
"""

import re
import struct
import sys
from collections import namedtuple
from fractions import Fraction
from functools import lru_cache
from math import floor, isfinite

ZONES, CARS, ENTRIES = 16, 64, 2048  # capacities
ROOM = 64  # the widest and highest town that the program has room for
LONGEST = 80  # bytes of a line, without its feed


class Refused(Exception):
    """The number of a refusal."""


def refuse_if(wrong, number):
    if wrong:
        raise Refused(number)


# ---- the town and its squares


class Shape(namedtuple("Shape", "k P Q")):
    @property
    def side(self):
        return 2**self.k

    @property
    def width(self):
        return self.P * self.side

    @property
    def height(self):
        return self.Q * self.side

    def allowed(self):
        # k first: the powers of a large k are never made
        return self.k <= 5 and self.P >= 1 and self.Q >= 1 and self.width <= 256 and self.height <= 256


def local_number(shape, level, x, y):
    """The low k bits of each, of these the top bits as many as the level, interleaved, y above x."""
    kept_x = (x % shape.side) >> (shape.k - level)
    kept_y = (y % shape.side) >> (shape.k - level)
    number = 0
    for rank in reversed(range(level)):
        number = 4 * number + 2 * (kept_y >> rank & 1) + (kept_x >> rank & 1)
    return number


def number_of(shape, level, x, y):
    block = x // shape.side + y // shape.side * shape.P
    return 4**level * block + local_number(shape, level, x, y)


def levels_apart(shape, old, new):
    """On how many levels the two cells lie in squares with different numbers."""
    return sum(number_of(shape, i, *old) != number_of(shape, i, *new) for i in range(shape.k + 1))


# ---- rectangles

Rectangle = namedtuple("Rectangle", "a b w h")


def fits(shape, r):
    return r.w > 0 and r.h > 0 and r.a + r.w <= shape.width and r.b + r.h <= shape.height


def holds(r, x, y):
    return r.a <= x < r.a + r.w and r.b <= y < r.b + r.h


def inside(r, x, y, side):
    """Whether the square lies wholly inside: its southwest and its northeast cell do."""
    return holds(r, x, y) and holds(r, x + side - 1, y + side - 1)


def in_cut(shape, r, level, x, y):
    side = shape.side >> level
    if not inside(r, x, y, side):
        return False
    above = 2 * side
    return level == 0 or not inside(r, x - x % above, y - y % above, above)


@lru_cache(maxsize=None)
def cut_size(shape, r):
    """Every square of every level is tested."""
    return sum(
        in_cut(shape, r, level, x, y)
        for level in range(shape.k + 1)
        for x in range(0, shape.width, shape.side >> level)
        for y in range(0, shape.height, shape.side >> level)
    )


# ---- positions


def cell_along(bits, end):
    """The cell of one coordinate, or None where it is no number, below 0, or above the end. Minus zero is 0.

    Exactly at the end it is the last cell.
    """
    value = struct.unpack(">f", struct.pack(">I", bits))[0]
    if not isfinite(value):
        return None
    exact = Fraction(value)
    if exact == end:
        return end - 1
    return floor(exact) if 0 <= exact < end else None


@lru_cache(maxsize=None)
def cell_of(shape, position):
    x, y = cell_along(position[0], shape.width), cell_along(position[1], shape.height)
    return None if x is None or y is None else (x, y)


# ---- the records


class Town:
    """What the log has said so far. Each record's method answers the fields after the 0."""

    def __init__(self):
        self.shape, self.zones, self.cars = None, {}, {}

    def zones_at(self, cell):
        return [z for z in sorted(self.zones) if cell is not None and holds(self.zones[z], *cell)]

    def cars_in(self, r):
        return [c for c in sorted(self.cars) if holds(r, *cell_of(self.shape, self.cars[c]))]

    def where(self, car):
        return cell_of(self.shape, self.cars[car]) if car in self.cars else None

    def M(self, k, P, Q):
        shape = Shape(k, P, Q)
        refuse_if(not shape.allowed(), 1)
        refuse_if(shape.width > ROOM or shape.height > ROOM, 3)
        self.shape, self.zones, self.cars = shape, {}, {}
        return []

    def A(self, zone, a, b, w, h):
        r = Rectangle(a, b, w, h)
        refuse_if(zone >= ZONES, 4)
        refuse_if(zone in self.zones, 6)
        refuse_if(not fits(self.shape, r), 9)
        standing = sum(cut_size(self.shape, other) for other in self.zones.values())
        refuse_if(standing + cut_size(self.shape, r) > ENTRIES, 12)
        self.zones[zone] = r
        return [cut_size(self.shape, r), len(self.cars_in(r))]

    def D(self, zone):
        refuse_if(zone >= ZONES, 4)
        refuse_if(zone not in self.zones, 7)
        del self.zones[zone]
        return []

    def P(self, car, x, y):
        refuse_if(car >= CARS, 5)
        old, new = self.where(car), cell_of(self.shape, (x, y))
        refuse_if(new is None, 10)
        self.cars[car] = (x, y)
        before, after = self.zones_at(old), self.zones_at(new)
        squares = self.shape.k + 1 if old is None else 2 * levels_apart(self.shape, old, new)
        return [squares, [z for z in after if z not in before], [z for z in before if z not in after]]

    def L(self, car):
        refuse_if(car >= CARS, 5)
        refuse_if(car not in self.cars, 8)
        left = self.zones_at(self.where(car))
        del self.cars[car]
        return [self.shape.k + 1, left]

    def S(self, x, y):
        cell = cell_of(self.shape, (x, y))
        refuse_if(cell is None, 10)
        return [self.shape.k + 1, self.zones_at(cell)]

    def R(self, zone):
        refuse_if(zone >= ZONES, 4)
        refuse_if(zone not in self.zones, 7)
        cars = self.cars_in(self.zones[zone])
        return [len(cars), cars]


# ---- lines and answers

# d: a decimal, x: a coordinate.
FORMS = {"M": "ddd", "A": "ddddd", "D": "d", "P": "dxx", "L": "d", "S": "xx", "R": "d"}


def field_value(kind, field):
    """The number that a field writes, or None."""
    if kind == "x":
        return int(field, 16) if re.fullmatch(rb"[0-9A-F]{8}", field) else None
    if not re.fullmatch(rb"0|[1-9][0-9]{0,9}", field) or int(field) >= 2**32:
        return None
    return int(field)


def parse(line):
    """The letter and the values of a line, or None where it gets 14."""
    fields = line.split(b"\t")
    letter = fields.pop(0).decode("latin-1")
    if len(line) > LONGEST or letter not in FORMS or len(fields) != len(FORMS[letter]):
        return None
    values = [field_value(kind, field) for kind, field in zip(FORMS[letter], fields)]
    return None if None in values else (letter, values)


def answer(town, line):
    record = parse(line)
    if record is None:
        return ["?", 14]
    letter, values = record
    try:
        refuse_if(letter != "M" and town.shape is None, 3)
        return [letter, 0, *getattr(town, letter)(*values)]
    except Refused as refusal:
        return [letter, refusal.args[0]]


def text(field):
    if isinstance(field, list):
        return ",".join(map(str, field)) or "-"
    return str(field)


def main():
    lines = sys.stdin.buffer.read().split(b"\n")
    if lines[-1] == b"":
        lines.pop()
    town = Town()
    for line in lines:
        sys.stdout.write("\t".join(map(text, answer(town, line))) + "\n")


if __name__ == "__main__":
    main()
