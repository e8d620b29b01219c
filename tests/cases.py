#!/usr/bin/env python3
"""The lines of crates/cases/stdout about squares, cuts and floats, worked out again by brute force.

Lines come on standard input and go to standard output with each answer, what stands after the arrow, made anew. Of the
old answer only how much of a cut's buffer it shows is read.
"""

import re
import sys

from oracle import Rectangle, Refused, Shape, cell_along, cell_of, fits, in_cut, number_of, refuse_if

FULL = 7  # what stands in a buffer before the call
ROOM, SHOWN = 64, 8  # a buffer's length, and how much of it a line shows; shorter ones are shown whole


def corners(shape, level):
    side = shape.side >> level
    return [(x, y) for x in range(0, shape.width, side) for y in range(0, shape.height, side)]


def number(shape, level, x, y):
    refuse_if(level > shape.k or (x, y) not in corners(shape, level), 13)
    return [number_of(shape, level, x, y)]


def square(shape, level, n):
    refuse_if(level > shape.k, 13)
    found = [at for at in corners(shape, level) if number_of(shape, level, *at) == n]
    refuse_if(not found, 13)
    return [*found[0], shape.side >> level]


def cut(shape, r, buffer):
    refuse_if(not shape.allowed(), 1)
    refuse_if(not fits(shape, r), 9)
    squares = sorted(
        level * 1048576 + number_of(shape, level, x, y)
        for level in range(shape.k + 1)
        for x, y in corners(shape, level)
        if in_cut(shape, r, level, x, y)
    )
    refuse_if(len(squares) > len(buffer), 11)
    buffer[: len(squares)] = squares
    return [len(squares)]


def told(call, *words):
    try:
        return [0, *call(*words)]
    except Refused as refused:
        return refused.args


def answer(kind, shape, words, old):
    if kind == "number":
        return told(number, shape, *words)
    if kind == "square":
        return told(square, shape, *words)
    if kind == "cut":
        shown = len(re.search(r"\[(.*)\]", old)[1].split())
        buffer = [FULL] * (ROOM if shown == SHOWN else shown)
        return [*told(cut, shape, Rectangle(*words), buffer), "[", *buffer[:shown], "]"]
    cell = cell_of(shape, tuple(words)) if shape.allowed() else None
    return cell or "-"


for line in sys.stdin:
    question, old = line.split(" -> ")
    kind, *town = question.split(":")[0].split()
    words = [int(word) for word in question.split(":")[1].split()]
    if kind == "cell":
        cell = cell_along(words[0], int(town[0]))
        new = ["-" if cell is None else cell]
    else:
        new = answer(kind, Shape(*map(int, town)), words, old)
    print(question, "->", *new)
