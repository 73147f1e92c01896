#!/usr/bin/env python3
"""A second schedule check, written from the words of Req 01 and from codegen.rs.

    schedule.py < plan             prints the sheet, or `refused N`, N from 1 to 10
    schedule.py --many < frames    the same for each frame, as frames
    schedule.py --test             tries the plans of schedule_cases.py

The sheet is the names line `term row fault` and a line for each fault. "Bound" is
is_bound of codegen.rs, whose line numbers (cranelift-isle 0.137.1) stand in comments.
Sentences in quotes are the request's own. No text is made: sources may be shared, so
an expression is judged once for each binding that it comes to.
"""

import sys
from collections import namedtuple
from itertools import takewhile

import frames
import reader
import schedule_cases

# A step's row number in its block, its row, the rows of its arms (none but for a
# match), and what is bound before its list and after it.
Step = namedtuple("Step", "at row arms before after")

PATTERNS = ("some", "variant", "struct")  # the arms that can bind


# What is bound at each step.

def own_bindings(arm):
    return {binding for binding in arm.list if binding is not None}


def arms_of(block, at):
    """The rows one level below a match, up to the next row of its level or a lower one."""
    level = block[at].level
    below = takewhile(lambda row: row.level > level, block[at + 1:])
    return [row for row in below if row.level == level + 1]


def steps(block):
    """The steps in row order. What a step's list binds stays for the rest of its block (737); what
    an arm (1090) or a loop (811) binds ends with the rows below it (142)."""
    bound_at = [set()]  # by level, what is bound where the next row of that level begins
    for at, row in enumerate(block):
        del bound_at[row.level + 1:]
        bound = bound_at[row.level]
        if row.kind in reader.STEPS:
            after = bound | set(row.list)
            arms = arms_of(block, at) if row.kind == "match" else []
            yield Step(at, row, arms, bound, after)
            bound_at[row.level] = after
            bound_at.append(after | {row.a} if row.kind == "loop" else after)
        else:
            bound_at.append(bound | own_bindings(row))


# What a step writes.

def written(bindings, expression, bound):
    """emit_expr (915-1061): the bound bindings, which are written as their names, and the unbound
    ones, which are written out with all of their sources."""
    named, written_out = set(), set()
    pending = [expression]
    while pending:
        binding = pending.pop()
        if binding in bound:
            named.add(binding)
        elif binding not in written_out:
            written_out.add(binding)
            pending += bindings[binding].list
    return named, written_out


def pattern_before_source(step):
    """The arm of "a one-arm `some`, `variant` or `struct` match", whose bindings are bound before
    the source is written (757-760); None for any other step."""
    if len(step.arms) == 1 and step.arms[0].kind in PATTERNS:
        return step.arms[0]
    return None


def after_list(step):
    """The expressions that a step writes after its list, and what is bound there. A loop writes
    names only (796-810)."""
    row, arm = step.row, pattern_before_source(step)
    expressions = {"match": [row.a], "equal": [row.a, row.b], "loop": [], "return": [row.a]}
    bound = step.after if arm is None else step.after | own_bindings(arm)
    return expressions[row.kind], bound


# The faults.

def is_iterator_call(plan, row):
    return row.kind in ("extract", "construct") and plan.terms[row.a].multi == 1


def loop_source_not_bound(_plan, group, step):
    """(a) "a loop whose iterator source isn't bound at that row", "for (a) after the step's
    list"."""
    if step.row.kind != "loop":
        return False
    [source] = group.bindings[step.row.a].list
    return source not in step.after


def iterator_call_not_listed(plan, group, step):
    """(b) "an iterator-kind `extract` or `construct` whose call is written other than as itself a
    member of a step's list"."""
    calls = set()  # the bindings that are written out, a list's member in its own line aside
    bound = step.before
    for member in step.row.list:
        calls |= written(group.bindings, member, bound)[1] - {member}
        bound = bound | {member}
    expressions, bound = after_list(step)
    for expression in expressions:
        calls |= written(group.bindings, expression, bound)[1]
    return any(is_iterator_call(plan, group.bindings[binding]) for binding in calls)


def source_uses_own_binding(_plan, group, step):
    """(c) "a one-arm `some`, `variant` or `struct` match whose written source uses one of the arm's
    own bindings that wasn't bound before"."""
    arm = pattern_before_source(step)
    if arm is None:
        return False
    [source], bound = after_list(step)
    named, _ = written(group.bindings, source, bound)
    return not named.isdisjoint(own_bindings(arm) - step.after)


FAULTS = {"a": loop_source_not_bound, "b": iterator_call_not_listed, "c": source_uses_own_binding}


def faults(plan):
    """Term, row and letter of each: "in plan order, a row's faults in letter order"."""
    for group in plan.generated:
        for step in steps(group.block):
            for letter, holds in FAULTS.items():
                if holds(plan, group, step):
                    yield group.term, step.at, letter


def sheet(content):
    """What the program prints for a plan's bytes."""
    try:
        plan = reader.read_plan(content)
    except reader.Refused as refused:
        return b"refused %d\n" % refused.number
    lines = [f"{term} {row} {letter}\n" for term, row, letter in faults(plan)]
    return ("term row fault\n" + "".join(lines)).encode()


def test():
    """Tries the stated plans; false if one doesn't hold."""
    held = 0
    for case in schedule_cases.CASES:
        found = sheet(case.plan)
        held += found == case.sheet
        if found != case.sheet:
            print(f"{case.name}: {found[:200]!r}, stated {case.sheet[:200]!r}")
    print(f"{held} of {len(schedule_cases.CASES)} held")
    return held == len(schedule_cases.CASES) > 0


def main(arguments):
    if arguments == ["--many"]:
        for content in frames.read(sys.stdin.buffer):
            frames.write(sys.stdout.buffer, sheet(content))
    elif arguments == ["--test"]:
        sys.exit(0 if test() else 1)
    elif not arguments:
        sys.stdout.buffer.write(sheet(sys.stdin.buffer.read()))
    else:
        sys.exit("usage: schedule.py [--many | --test]")


if __name__ == "__main__":
    main(sys.argv[1:])
