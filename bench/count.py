#!/usr/bin/env python3
"""Instructions that callgrind counts: they repeat to a thousandth where times don't.
Usage: count.py sides NAME PROGRAM ARGUMENT..    ours and those of the side NAME, on each plan
       count.py rooms PROGRAM ARGUMENT..         ours on texts beyond any memory, in rooms that double
       count.py share LIMITED PROGRAM ARGUMENT.. the schedule check less reading and refusals, as a share of the whole answer

The program calls functions `side_..`, in which is counted, and after each of them `counted`. It prints a line of headings, then a line
for each plan, or for each plan and room, after its one to three calls. Standard input is the program's.
`rooms` ends with status 1 if a byte of a plan takes more than MOST_PLAN instructions or a byte of room more than MOST_ROOM, or if
there is no answer in SECONDS; `share` if the share is more than MOST_SHARE for a plan whose name LIMITED has (names with commas).
"""

import os
import pathlib
import subprocess
import sys
import tempfile

MOST_PLAN = 100
MOST_ROOM = 12
MOST_SHARE = 0.25
SECONDS = 60
# The C library's `rep stosb` and `rep movsb` are off on both sides, since callgrind counts each byte of them.
TUNABLES = "glibc.cpu.x86_rep_stosb_threshold=1000000000:glibc.cpu.x86_rep_movsb_threshold=1000000000"


def counted(program, seconds=None):
    """The lines that the program prints, and the instructions of each call, in order."""
    with tempfile.TemporaryDirectory() as folder:
        out = pathlib.Path(folder) / "out"
        options = [f"--callgrind-out-file={out}", "--collect-atstart=no", "--toggle-collect=side_*", "--dump-before=counted"]
        run = subprocess.run(["valgrind", "--quiet", "--tool=callgrind", *options, *program], check=False, timeout=seconds,
                             stdout=subprocess.PIPE, text=True, env=os.environ | {"GLIBC_TUNABLES": TUNABLES})
        if run.returncode:
            sys.exit(f"{run.stdout}{program[0]} ended with status {run.returncode}")
        # Each call has a file out.N; what the program did after the last one is in `out`.
        parts = [pathlib.Path(f"{out}.{n + 1}").read_text() for n in range(len(list(out.parent.iterdir())) - 1)]
        return run.stdout.splitlines(), [int(part.split("\nsummary: ")[1].split()[0]) for part in parts]


def sides(name, program):
    (headings, *lines), counts = counted(program)
    assert len(counts) == 2 * len(lines), "two calls for each plan"
    print(f"{headings} {'ours':>12} {name:>12}   ratio")
    for line, ours, theirs in zip(lines, counts[::2], counts[1::2]):
        print(f"{line} {ours:12} {theirs:12}   {ours / theirs:.3f}")
    return True


def rooms(program):
    """What room 0 takes is for the plan, and what a larger room takes beyond it is for the room."""
    try:
        (headings, *lines), counts = counted(program, SECONDS)
    except subprocess.TimeoutExpired:
        print(f"no answer in {SECONDS} s: measuring does not stop at the room's end")
        return False
    assert len(counts) == len(lines) > 0, "a call for each plan and room"
    most = {"plan": 0.0, "room": 0.0}
    print(f"{headings} {'instructions':>12}   for a byte")
    for line, count in zip(lines, counts):
        plan, room = map(int, line.split())
        if room == 0:
            alone = count
        what, each = ("room", (count - alone) / room) if room else ("plan", count / plan)
        most[what] = max(most[what], each)
        print(f"{line} {count:12}   {each:6.2f} of {what}")
    print(f"at most {most['plan']:.2f} instructions for a byte of a plan, {most['room']:.2f} for a byte of room")
    return most["plan"] <= MOST_PLAN and most["room"] <= MOST_ROOM


def share(limited, program):
    """Three calls for each plan: the check, which reads and judges the plan too, reading and judging alone, and the whole answer."""
    (headings, *lines), counts = counted(program)
    assert len(counts) == 3 * len(lines) > 0, "three calls for each plan"
    print(f"{headings} {'check':>12} {'refusals':>12} {'whole':>12}   share")
    worst = 0.0
    for line, check, refusals, whole in zip(lines, counts[::3], counts[1::3], counts[2::3]):
        of_whole = (check - refusals) / whole
        worst = max(worst, of_whole) if line.split()[0] in limited else worst
        print(f"{line} {check:12} {refusals:12} {whole:12}   {of_whole:.3f}")
    print(f"at most {worst:.3f} of the whole answer for {' and '.join(limited)}")
    return worst <= MOST_SHARE


def main():
    if len(sys.argv) < 3 or sys.argv[1] not in ("sides", "rooms", "share"):
        sys.exit(__doc__)
    if sys.argv[1] == "rooms":
        good = rooms(sys.argv[2:])
    elif sys.argv[1] == "share":
        good = share(sys.argv[2].split(","), sys.argv[3:])
    else:
        good = sides(sys.argv[2], sys.argv[3:])
    sys.exit(0 if good else 1)


main()
