#!/usr/bin/env python3
"""Takes the closures off a split text, given its plan.

    take_off.py whole|terms PLAN < text    prints the text without closures
    take_off.py many whole|terms           frames in turn: plan, split text, plan, ..;
                                           writes the unsplit text of each as a frame

Whose a line is follows from the plan's rows, never from its look: `line_runs`
counts the lines that codegen.rs writes for each row, and the text is cut along
that count alone. A text that is longer or shorter than the count, or that lacks
a closure's line or its indentation where the count puts one, is an error.

Numbers in comments are line numbers of codegen.rs (cranelift-isle 0.137.1).
Sentences in quotes are the plan description's own on taking closures off.
"""

import sys
from collections import namedtuple
from contextlib import contextmanager

import frames
import reader

# `count` lines in a row that are treated alike. `closures` is the number of
# split arms that their row is below. `role` is STAYS, OVERFLOW, or, for a line
# of a closure, the text that codegen.rs writes there after the indentation.
Run = namedtuple("Run", "count closures role")
STAYS, OVERFLOW = "stays", "overflow"

DEFAULT_MATCH_ARM_BODY_CLOSURE_THRESHOLD = 256  # 16
ITERATOR_TEXT = 85  # 303-391: the line ends of the raw string and of its writeln


class LostStep(Exception):
    """The text isn't the plan's: says at which line that shows."""


# The lines before the terms, which have no row.

def header_lines(plan):
    """188-220. The pragmas and `use super::*` have an empty line before them."""
    pragmas = 0 if plan.options.nopragmas else 4
    return 3 + len(plan.files) + pragmas + 3


def trait_lines(plan):
    """274-392. A signature that returns an iterator has one line more (235-244)."""
    signatures = 0
    for term in plan.terms:
        external = [name for name in (term.xtor, term.ctor) if name not in ("-", "in")]
        signatures += len(external) * (1 + term.multi)
    return 5 + signatures + 1 + ITERATOR_TEXT


def field_lines(shape, fields):
    """483-503. Only named fields have lines, and neither form ends its last one."""
    return 1 + len(fields) if shape == "named" else 0


def type_lines(plan, number, row):
    """396-468. Each type has an empty line before it."""
    if row.kind == "prim" or row.is_extern:
        return 0
    if row.kind == "unit":
        return 4
    if row.kind == "enum":
        variants = plan.variants_of.get(number, [])
        return 5 + sum(field_lines(variant.shape, variant.fields) + 1 for variant in variants)
    return 3 + field_lines(row.kind, row.fields)  # "the next item's leading newline ends it"


def lines_before_terms(plan):
    types = enumerate(plan.types, reader.BUILTINS)
    return (header_lines(plan) + trait_lines(plan)
            + sum(type_lines(plan, number, row) for number, row in types))


# The rows of a block table.

def ends_below(rows):
    """For each row the first one after those below it: "the next row of its level or a lower
    one"."""
    ends = [len(rows)] * len(rows)
    above = []
    for at, row in enumerate(rows):
        while above and rows[above[-1]].level >= row.level:
            ends[above.pop()] = at
        above.append(at)
    return ends


def steps_before(rows):
    """For each row, and for the end, how many steps stand before it."""
    counts = [0]
    for row in rows:
        counts.append(counts[-1] + (row.kind in reader.STEPS))
    return counts


class Body:
    """The lines of a generated term's block, walked as emit_block_contents does (672-913)."""

    def __init__(self, plan, group):
        self.plan = plan
        self.bindings = group.bindings
        self.rows = group.block
        self.is_iterator = plan.terms[group.term].multi == 1
        self.ends = ends_below(self.rows)
        self.steps_before = steps_before(self.rows)
        self.is_bound = set()
        self.match_split = 0
        self.runs = []

    def add(self, count, closures, role=STAYS):
        self.runs.append(Run(count, closures, role))

    # How many line ends an expression or a pattern holds.

    def expression_lines(self, binding):
        """emit_expr (915-1061): a bound one is its name, any other is written through its
        sources."""
        return self.lines_through_sources(binding, {})

    def lines_through_sources(self, binding, known):
        if binding in self.is_bound:
            return 0
        if binding not in known:
            row = self.bindings[binding]
            lines = 0
            for source in row.list:
                lines += self.lines_through_sources(source, known)
            if row.kind in ("variant", "struct") and row.list:
                lines += 1 + len(row.list)  # 959-977: ` {`, then each field ends a line
            known[binding] = lines
        return known[binding]

    def pattern_lines(self, arm):
        """emit_constraint (1077-1134): what the arm binds is bound before anything is written."""
        bound = [binding for binding in arm.list if binding is not None]
        self.is_bound.update(bound)
        if arm.kind == "some" or not arm.list:
            return 0
        return 1 + len(bound) + (len(bound) < len(arm.list))  # 1142-1170: ` {`, fields, `..`

    # The lines of the rows. `closures` is the number of split arms above them.

    def children(self, at):
        """The rows one level below the row `at`; those at level 0 where it is None."""
        child, end = (0, len(self.rows)) if at is None else (at + 1, self.ends[at])
        while child < end:
            yield child
            child = self.ends[child]

    @contextmanager
    def scope(self):
        """enter_scope and end_block (128-145): bound marks go back at the scope's end."""
        outer = set(self.is_bound)
        yield
        self.is_bound = outer

    def block(self, at, closures):
        steps = {"match": self.match, "equal": self.equal, "loop": self.loop,
                 "return": self.return_}
        for step in self.children(at):
            row = self.rows[step]
            self.bind(row, closures)
            with self.scope():
                steps[row.kind](step, row, closures)

    def bind(self, row, closures):
        """693-738: a `let` for each binding of bind_order; a call that gives an iterator has a
        `default()` line before it, also where the binding is bound already."""
        for binding in row.list:
            bound = self.bindings[binding]
            is_call = bound.kind in ("extract", "construct")
            default = 1 if is_call and self.plan.terms[bound.a].multi else 0
            self.add(default + self.expression_lines(binding) + 1, closures)
            self.is_bound.add(binding)

    def match(self, at, row, closures):
        arms = list(self.children(at))
        if len(arms) == 1:
            self.match_one_arm(row.a, arms[0], closures)
            return
        self.add(self.expression_lines(row.a) + 1, closures)  # 767-771
        for arm in arms:
            with self.scope():
                self.arm(arm, closures)
        self.add(2, closures)  # `_ => {}` (776) and "a closing brace for the row that opened it"

    def match_one_arm(self, source, arm, closures):
        """742-765: before a constant the source is written, after any other pattern."""
        row = self.rows[arm]
        if row.kind in reader.CONSTANTS:
            head = self.expression_lines(source) + self.pattern_lines(row)
        else:
            head = self.pattern_lines(row) + self.expression_lines(source)
        self.add(head + 1, closures)
        self.block(arm, closures)
        self.add(1, closures)

    def arm(self, at, closures):
        """858-908: an arm of a match of two or more."""
        self.add(self.pattern_lines(self.rows[at]) + 1, closures)
        if self.splits(at):
            self.closure(at, closures)
        else:
            self.block(at, closures)
        self.add(1, closures)

    def weight(self, at):
        """block_weight (644-657) of the body below a row: 1 for each step there."""
        return self.steps_before[self.ends[at]] - self.steps_before[at + 1]

    def splits(self, at):
        """877-882, asked of arms in matches of two or more only."""
        options = self.plan.options
        threshold = options.threshold
        if threshold is None:
            threshold = DEFAULT_MATCH_ARM_BODY_CLOSURE_THRESHOLD
        return options.split == 1 and self.is_iterator and self.weight(at) > threshold

    def closure(self, at, closures):
        """884-902: "the four lines that codegen.rs writes for the arm when it splits"."""
        # "Its number is how many split arms stand on earlier rows of the same block table".
        closure_id = self.match_split
        self.match_split += 1
        action = "return true;" if closures else "return;"
        self.add(1, closures, "if (|| -> bool {")
        self.block(at, closures + 1)  # "inside it stand the lines of the rows below the arm"
        self.add(1, closures, "false")
        self.add(1, closures, "}")
        self.add(1, closures, f")() {{ {action} }} // __isle_arm_{closure_id}")

    def equal(self, at, row, closures):
        """779-787"""
        self.add(self.expression_lines(row.a) + self.expression_lines(row.b) + 1, closures)
        self.block(at, closures)
        self.add(1, closures)

    def loop(self, at, row, closures):
        """789-814: two lines, then the result is bound; the source isn't."""
        self.add(2, closures)
        self.is_bound.add(row.a)
        self.block(at, closures)
        self.add(1, closures)

    def return_(self, _at, row, closures):
        """816-854: the rule's position, the log line if asked for, the result."""
        self.add(1 + self.plan.options.log + self.expression_lines(row.a) + 1, closures)
        if self.is_iterator:
            # "An overflow line is the last line of a `return` in a term of Iterator kind."
            self.add(1, closures, OVERFLOW)


def term_runs(plan, group):
    """522-606. Only the block's lines have rows."""
    term = plan.terms[group.term]
    body = Body(plan, group)
    # 540-577: an empty line or the end of a struct's, comment, name, ctx, arguments, returns,
    # and the line that begin_block (668) ends.
    body.add(4 + len(term.args) + term.multi + 1, 0)
    body.block(None, 0)
    # 585-602. "the `None` or `unreachable!` line and the constructor's closing brace have no row"
    last_step = [group.block[at].kind for at in body.children(None)][-1:]
    body.add(2 if not term.multi and last_step != ["return"] else 1, 0)
    return body.runs


def line_runs(plan, form):
    runs = [Run(lines_before_terms(plan), 0, STAYS)] if form == "whole" else []
    for group in plan.generated:
        runs += term_runs(plan, group)
    return runs


def ends_open(plan, form):
    """Whether the text's last line has no LF: a struct's, with no term after it."""
    if form == "terms" or plan.generated:
        return False
    written = [row.kind for row in plan.types if row.kind != "prim" and not row.is_extern]
    return written[-1:] in (["named"], ["tuple"])


# Taking off, "line by line".

def treat(line, run):
    """The line as it stands in the unsplit text; None for a closure's, which "is left out"."""
    indent = b"    " * run.closures
    if not line.startswith(indent):
        raise LostStep(f"the indentation of {run.closures} closures is missing")
    line = line[len(indent):]  # "four spaces at its front for each split arm"
    if run.role == STAYS:
        return line
    if run.role == OVERFLOW:
        return line.replace(b"return true;", b"return;")
    if line.lstrip(b" ") != run.role.encode():
        raise LostStep(f"the closure's line `{run.role}` should stand here")
    return None


def take_off(plan, form, text):
    """The text without closures; raises LostStep where the text isn't the plan's."""
    *lines, rest = text.split(b"\n")
    kept = []
    at = 0
    for run in line_runs(plan, form):
        if run.count > len(lines) - at:
            raise LostStep(f"line {len(lines) + 1}: the text ends before the plan's rows do")
        for line in lines[at:at + run.count]:
            at += 1
            try:
                kept.append(treat(line, run))
            except LostStep as lost:
                raise LostStep(f"line {at}: {lost}") from None
    if at < len(lines) or bool(rest) != ends_open(plan, form):
        raise LostStep(f"line {at + 1}: the plan's rows end before the text does")
    return b"\n".join([line for line in kept if line is not None] + [rest])


def take_off_one(place, form, plan, text):
    try:
        return take_off(reader.read_plan(plan), form, text)
    except (LostStep, reader.Refused) as error:
        sys.stdout.flush()
        sys.exit(f"take_off.py: {place}{error}")


def main(arguments):
    match arguments:
        case ["many", ("whole" | "terms") as form]:
            contents = frames.read(sys.stdin.buffer)
            for pair, plan in enumerate(contents):
                text = take_off_one(f"pair {pair}: ", form, plan, next(contents))
                frames.write(sys.stdout.buffer, text)
        case [("whole" | "terms") as form, path]:
            with open(path, "rb") as file:
                text = take_off_one("", form, file.read(), sys.stdin.buffer.read())
            sys.stdout.buffer.write(text)
        case _:
            sys.exit("usage: take_off.py whole|terms PLAN < text\n"
                     "       take_off.py many whole|terms < frames")


# Sources may stand 1,024 deep, each a call of lines_through_sources.
sys.setrecursionlimit(10000)

if __name__ == "__main__":
    main(sys.argv[1:])
