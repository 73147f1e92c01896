#!/usr/bin/env python3
"""Plans to time a reader with, as files of a folder: reader_plans.py FOLDER < frames of generated plans, one for each name of PROFILES, then
those of the profile `limits`, which are taken as they are.

NAME.plan is a plan of at most 65,536 bytes; NAME.SIZE.plan, at the sizes of SIZES, are plans of one shape that differ in
their length only. A generated plan is brought to 65,536 bytes by repeating its generated terms, then by further texts.
"""

import os
import sys

sys.path.insert(0, os.path.join(os.path.dirname(os.path.abspath(__file__)), "..", "oracle"))
import frames

MOST = 65536
SIZES = (8192, 16384, 32768, 65536)
PROFILES = "small types terms expr blocks iterators split literals texts deep large explode".split()
NAMES = [b"nopragmas log split threshold", b"file", b"sym", b"pos", b"kind name extern nodebug pos list",
         b"type name shape list", b"name pos ret multi partial ctor xtor infallible list",
         b"term", b"kind a b list", b"level kind a b list"]


def text(tables):
    """Tables of rows as a plan's bytes."""
    lines = []
    for number, rows in enumerate(tables):
        sort = number if number < 7 else 7 + (number - 7) % 3
        lines += [NAMES[sort], *rows, b""]
    return b"".join(line + b"\n" for line in lines)


def tables_of(plan):
    tables, rows = [], None
    for line in plan.split(b"\n")[:-1]:
        if rows is None:
            rows = []
        elif line:
            rows.append(line)
        else:
            tables.append(rows)
            rows = None
    return tables


def padded(tables, size):
    """The plan with texts of some 30 bytes in its table `sym`, at exactly this length."""
    tables = [list(rows) for rows in tables]
    left = size - len(text(tables))
    while left > 0:
        row = b"padding_%022d" % left if left > 64 and len(tables[2]) < 2040 else b"p" * (left - 1)
        if not row:
            tables[2][-1] += b"p"
            break
        tables[2].append(row)
        left -= len(row) + 1
    return text(tables)


def repeated(plan, size):
    """The plan's generated terms again and again, as long as they fit."""
    tables = tables_of(plan)
    groups = [tables[at:at + 3] for at in range(7, len(tables), 3)]
    length, number = len(text(tables)), 0
    while groups and len(tables) < 7 + 3 * 64:
        group = groups[number % len(groups)]
        length += len(text([[]] * 7 + group)) - len(text([[]] * 7))
        if length > size:
            break
        tables += group
        number += 1
    return padded(tables, size)


def environment(args, multi):
    """One term of so many arguments of type u8, a sym, a position and the options."""
    listed = b",".join([b"1"] * args) or b"-"
    return [[b"0 0 0 -"], [b"a.isle"], [b"term"], [b"a.isle line 1"], [], [], [b"0 0 1 %d 1 in in 0 %b" % (multi, listed)]]


def fitting(build, size):
    """The most that fits, by halving: build(n) grows with n."""
    low, high = 0, 1
    while len(text(build(high))) <= size and high < 65536:
        low, high = high, high * 2
    while high - low > 1:
        middle = (low + high) // 2
        low, high = (middle, high) if len(text(build(middle))) <= size else (low, middle)
    return build(low)


def one_line(size):
    """One text that is nearly the whole plan."""
    tables = environment(0, 0) + [[b"0"], [], []]
    tables[1][0] = b"x" * (size - len(text(tables)) + len(tables[1][0]))
    return text(tables)


def one_list(size):
    """One line with a list of numbers that is nearly the whole plan: refused, but only by 4."""
    def build(n):
        return environment(0, 0) + [[b"0"], [], [b"0 match 0 - " + b",".join(b"%d" % (i % 100) for i in range(n + 1))]]
    return padded(fitting(build, size), size)


def rows(size):
    """A block of as many rows as fit, at 65,536 bytes its most: 2,048."""
    def build(n):
        bindings = [b"arg 0 - -", b"int 1 %032x -" % 7, b"some - - 1"]
        bound = b",".join([b"0", b"1", b"2"] * 5)
        block = [b"0 match 0 - -"]
        for i in range(n):
            block += [b"1 int 1 %032x -" % i, b"2 equal 0 1 " + bound, b"3 return 2 0 1", b"2 match 2 - " + bound, b"3 some - - 0"]
        return environment(1, 1) + [[b"0"], bindings, block[:2048]]
    return padded(fitting(build, size), size)


def lists(size):
    """Bindings with lists of 32 sources."""
    def build(n):
        bindings = [b"arg %d - -" % i for i in range(32)]
        bindings += [b"construct 0 - " + b",".join(b"%d" % ((i * 7 + k * 5) % (32 + i)) for k in range(32)) for i in range(n)]
        return environment(32, 0) + [[b"0"], bindings, [b"0 return %d 0 -" % (len(bindings) - 1)]]
    return padded(fitting(build, size), size)


def terms(size):
    """Generated terms of some thousand bytes, at 65,536 bytes their most: 64."""
    def build(n):
        tables = environment(2, 0)
        for i in range(min(n, 64)):
            bindings = [b"arg 0 - -", b"arg 1 - -"] + [b"construct 0 - %d,%d" % (k % (k + 2), k + 1) for k in range(18)]
            block = [b"0 equal 0 1 -"] + [b"%d equal %d %d %d" % (k, k, k + 1, k + 2) for k in range(1, 17)] + [b"17 return 19 0 -"]
            tables += [[b"0"], bindings + [b"int %d %032x -" % (k, i * 1000003 + k) for k in range(6)], block]
        return tables
    return padded(fitting(build, size), size)


SHAPES = {"one_line": one_line, "one_list": one_list, "rows": rows, "lists": lists, "terms": terms}


def main():
    folder = sys.argv[1]
    os.makedirs(folder, exist_ok=True)
    plans = {}
    for number, plan in enumerate(frames.read(sys.stdin.buffer)):
        if number < len(PROFILES):
            plans[PROFILES[number]] = repeated(plan, MOST)
        else:
            plans[f"limits_{number - len(PROFILES)}"] = plan
    for name, shape in SHAPES.items():
        for size in SIZES:
            plans[f"{name}.{size}"] = shape(size)
    for old in os.listdir(folder):
        os.remove(os.path.join(folder, old))
    for name, plan in plans.items():
        with open(os.path.join(folder, name + ".plan"), "wb") as out:
            out.write(plan)


if __name__ == "__main__":
    main()
