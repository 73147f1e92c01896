#!/usr/bin/env python3
"""Byte strings to try a reader with, as frames: bytes.py SEED COUNT PLAN.

First the plan with every byte value at every position, and with each byte left out; then COUNT random strings: of any bytes, of
bytes that a plan may have, of the words and lines of plans, and the plan with parts moved or repeated, some near the plan's most.
"""

import os
import random
import sys

sys.path.insert(0, os.path.join(os.path.dirname(os.path.abspath(__file__)), "..", "oracle"))
import frames

ALLOWED = bytes([10, *range(32, 127)])
WORDS = (b"0 1 2 3 13 14 63 64 255 256 65535 65536 00 01 - _ in 0,1 0:1 1,2,3 0,_ prim enum unit named tuple bool int arg extract construct"
         b" iter variant struct some matchsome matchtuple matchvariant extractstruct match equal loop return"
         b" 00000000000000000000000000000007 a.isle").split()


def damaged(plan):
    for at in range(len(plan)):
        yield plan[:at] + plan[at + 1:]
        for value in range(256):
            yield plan[:at] + bytes([value]) + plan[at + 1:]


def of_any(chance, plan, lines):
    return chance.randbytes(chance.randrange(200))


def of_allowed(chance, plan, lines):
    return bytes(chance.choices(ALLOWED, k=chance.randrange(400)))


def of_words(chance, plan, lines):
    """Lines of the plan with rows of words between them."""
    made = []
    for line in lines:
        made.append(line)
        for _ in range(chance.choice((0, 0, 0, 0, 1, 2))):
            made.append(b" ".join(chance.choices(WORDS, k=chance.choice((1, 4, 4, 4, 5, 5, 6, 9)))))
    return b"\n".join(made)


def of_lines(chance, plan, lines):
    """Lines of the plan left out, repeated or exchanged."""
    made = list(lines)
    for _ in range(chance.randrange(1, 4)):
        at, other = chance.randrange(len(made)), chance.randrange(len(made))
        how = chance.randrange(4)
        if how == 0 and len(made) > 1:
            del made[at]
        elif how == 1:
            made.insert(at, made[other])
        elif how == 2:
            made[at], made[other] = made[other], made[at]
        else:
            words = made[at].split(b" ")
            words[chance.randrange(len(words))] = chance.choice(WORDS)
            made[at] = b" ".join(words)
    return b"\n".join(made)


def of_most(chance, plan, lines):
    """A text that brings the plan to about its most."""
    at = plan.index(b"a.isle")
    length = 65536 - len(plan) + chance.randrange(-2, 3)
    return plan[:at] + bytes(chance.choices(ALLOWED[1:], k=1)) * length + plan[at:]


def strings(seed, count, plan):
    lines = plan.split(b"\n")
    kinds = [of_any, of_allowed] + [of_words] * 3 + [of_lines] * 5
    for number in range(count):
        chance = random.Random(f"{seed} {number}")
        kind = of_most if number % 100 == 99 else chance.choice(kinds)
        yield kind(chance, plan, lines)


def main():
    with open(sys.argv[3], "rb") as given:
        plan = given.read()
    for content in damaged(plan):
        frames.write(sys.stdout.buffer, content)
    for content in strings(sys.argv[1], int(sys.argv[2]), plan):
        frames.write(sys.stdout.buffer, content)


if __name__ == "__main__":
    main()
