#!/usr/bin/env python3
"""A second reader of plans, written from the plan's description alone.

    reader.py < plan     prints `accepted` or `refused N`, N from 1 to 10
    reader.py many       the same for each frame of standard input, as frames

A fault of shape (refusal 3) ends the reading at once. The refusals after it are
judged on the plan as read, each over the whole plan and in the order of their
numbers, so that the lowest number is given.
"""

import re
import sys
from collections import namedtuple

import frames

BUILTINS = 13
STRUCTS = ("unit", "named", "tuple")
MOST_PLAN = 65536
MOST_ROWS = {"files": 64, "syms": 2048, "positions": 2048, "types": 256 - BUILTINS,
             "variants": 1024, "terms": 512, "generated": 64}
MOST_BINDINGS, MOST_BLOCK_ROWS, MOST_LEVEL, MOST_LIST = 1024, 2048, 63, 32
# Numbers have any count of digits. The longer ones are all read as this one,
# which is beyond every row, level and limit that a plan can have.
BEYOND = 10**9

# A field is (sym or None, type). ctor and xtor are "-", "in" or a sym row. The
# list of a Row is a step's bind_order, or an arm's bindings with None for `_`.
Options = namedtuple("Options", "nopragmas log split threshold")
Type = namedtuple("Type", "kind name is_extern is_nodebug pos fields")
Variant = namedtuple("Variant", "type name shape fields")
Term = namedtuple("Term", "name pos ret multi partial ctor xtor infallible args")
Binding = namedtuple("Binding", "kind a b list")
Row = namedtuple("Row", "level kind a b list")
Generated = namedtuple("Generated", "term bindings block")
Plan = namedtuple("Plan", "options files syms positions types variants terms generated"
                          " variants_of")  # the last: enum type number to its variants


class Refused(Exception):
    """The refusal's number, and words for the first fault of that number that was met."""

    def __init__(self, number, *fault):
        super().__init__(f"refused {number}")
        self.number = number
        self.fault = fault


def need(holds, number, *fault):
    if not holds:
        raise Refused(number, *fault)


# Refusal 3: single values. Each reader takes the text of a column.

NUMBER = re.compile("0|[1-9][0-9]*")
VALUE = re.compile("[0-9a-f]{32}")


def number(text):
    need(NUMBER.fullmatch(text), 3, "number", text[:1])
    return int(text) if len(text) <= 9 else BEYOND


def number_up_to(most):
    def read(text):
        result = number(text)
        need(result <= most, 3, "over", most, result == most + 1)
        return result
    return read


flag = number_up_to(1)
field = number_up_to(255)
given_threshold = number_up_to(65535)


def threshold(text):
    return None if text == "-" else given_threshold(text)


def value(text):
    need(VALUE.fullmatch(text), 3, "value", min(max(len(text), 31), 33), text == text.lower())
    return int(text, 16)


def external(text):
    return text if text in ("-", "in") else number(text)


def unused(text):
    need(text == "-", 3, "unused")


def no_list(text):
    unused(text)
    return []


def list_of(item):
    return lambda text: [] if text == "-" else [item(part) for part in text.split(",")]


def named_field(text):
    sym, _, type_ = text.partition(":")
    return number(sym), number(type_)


numbers = list_of(number)
arm_bindings = list_of(lambda text: None if text == "_" else number(text))
FIELDS = {"unit": no_list, "named": list_of(named_field),
          "tuple": list_of(lambda text: (None, number(text)))}

# Refusal 3: the readers of a row's columns, by its kind where it has one.

OPTIONS = (flag, flag, flag, threshold)
TYPES = {"prim": (number, unused, unused, unused, no_list)} | {
    kind: (number, flag, flag, number, fields)
    for kind, fields in (FIELDS | {"enum": no_list}).items()}
TERMS = (number, number, number, flag, flag, external, external, flag, numbers)
CONSTANTS = {"bool": (flag, unused), "int": (number, value), "prim": (number, unused)}
CONSTRAINTS = CONSTANTS | {
    "variant": (number, number), "struct": (number, unused), "some": (unused, unused)}
BINDINGS = CONSTRAINTS | {
    "arg": (number, unused), "extract": (number, unused), "construct": (number, unused),
    "iter": (unused, unused), "matchsome": (unused, unused), "matchtuple": (field, unused),
    "matchvariant": (field, unused), "extractstruct": (field, unused)}
STEPS = {"match": (number, unused), "equal": (number, number), "loop": (number, unused),
         "return": (number, number)}


def read_columns(readers, texts):
    need(len(readers) == len(texts), 3, "columns")
    values = []
    try:
        for read, text in zip(readers, texts):
            values.append(read(text))
    except Refused as refused:
        raise Refused(3, "column", len(values), *refused.fault) from None
    return values


def readers_of(kinds, kind):
    need(kind in kinds, 3, "kind")
    return kinds[kind]


def read_type(kind, *rest):
    return Type(kind, *read_columns(readers_of(TYPES, kind), rest))


def read_variant(*row):
    shape = row[2] if len(row) == 4 else None
    fields = readers_of(FIELDS, shape)
    return Variant(*read_columns((number, number, str, fields), row))


def read_binding(kind, *rest):
    return Binding(kind, *read_columns((*readers_of(BINDINGS, kind), numbers), rest))


def block_row_reader():
    above = []  # the kinds of the rows that the next row can stand below, by level

    def read(level, kind=None, *rest):
        level = number(level)
        need(level <= len(above), 3, "level", min(level - len(above), 2))
        del above[level:]
        parent = above[-1] if above else None
        need(parent != "return", 3, "below return")
        above.append(kind)
        kinds, values = (CONSTRAINTS, arm_bindings) if parent == "match" else (STEPS, numbers)
        return Row(level, kind, *read_columns((*readers_of(kinds, kind), values), rest))

    return read


# Refusal 3: tables.

class Lines:
    """The lines of a plan, each ended by LF, taken table by table."""

    def __init__(self, text):
        # The last table's empty line; with it, every table finds one.
        need(text.endswith("\n\n"), 3, "last line")
        self.lines = text[:-1].split("\n")
        self.at = 0

    def texts(self, names):
        """The next table: its rows are the lines from its names line to the next empty one."""
        need(self.at < len(self.lines) and self.lines[self.at] == names, 3, "names", names)
        start, end = self.at + 1, self.lines.index("", self.at)
        self.at = end + 1
        return self.lines[start:end]

    def rows(self, names, read):
        try:
            return [read(*row.split(" ")) for row in self.texts(names)]
        except Refused as refused:
            raise Refused(3, names, *refused.fault) from None

    def row(self, names, *readers):
        rows = self.rows(names, lambda *row: read_columns(readers, row))
        need(len(rows) == 1, 3, "one row", names, len(rows) > 1)
        return rows[0]


def read_shape(text):
    lines = Lines(text)
    plan = Plan(
        Options(*lines.row("nopragmas log split threshold", *OPTIONS)),
        lines.texts("file"), lines.texts("sym"), lines.texts("pos"),
        lines.rows("kind name extern nodebug pos list", read_type),
        lines.rows("type name shape list", read_variant),
        lines.rows("name pos ret multi partial ctor xtor infallible list",
                   lambda *row: Term(*read_columns(TERMS, row))), [], {})
    while lines.at < len(lines.lines):
        plan.generated.append(Generated(
            *lines.row("term", number), lines.rows("kind a b list", read_binding),
            lines.rows("level kind a b list", block_row_reader())))
    for variant in plan.variants:
        plan.variants_of.setdefault(variant.type, []).append(variant)
    return plan


# Refusals 4 to 10. Each function refuses the plan if it has the fault; it may
# rely on those before it.

def check_most(plan):
    for table, most in MOST_ROWS.items():
        need(len(getattr(plan, table)) <= most, 4, table)
    for row in plan.types + plan.variants:
        need(len(row.fields) <= MOST_LIST, 4, "fields")
    for term in plan.terms:
        need(len(term.args) <= MOST_LIST, 4, "args")
    for group in plan.generated:
        need(len(group.bindings) <= MOST_BINDINGS, 4, "bindings")
        need(len(group.block) <= MOST_BLOCK_ROWS, 4, "block")
        for row in group.bindings + group.block:
            need(len(row.list) <= MOST_LIST, 4, "list of", row.kind)
        for row in group.block:
            need(row.level <= MOST_LEVEL, 4, "level")


def exists(number_, count, *what):
    if number_ >= count:
        raise Refused(5, *what, "next" if number_ == count else "later")


def check_existence(plan):
    syms, positions, types = len(plan.syms), len(plan.positions), BUILTINS + len(plan.types)

    def check_fields(fields, *what):
        for sym, type_ in fields:
            if sym is not None:
                exists(sym, syms, *what, "field sym")
            exists(type_, types, *what, "field type")

    for row in plan.types:
        exists(row.name, syms, "type name")
        if row.kind != "prim":
            exists(row.pos, positions, "type pos")
        check_fields(row.fields, "type")
    for row in plan.variants:
        kind = kind_of(plan, row.type)
        need(kind == "enum", 5, "variant of", kind)
        exists(row.name, syms, "variant name")
        check_fields(row.fields, "variant")
    for term in plan.terms:
        exists(term.name, syms, "term name")
        exists(term.pos, positions, "term pos")
        for call in ("ctor", "xtor"):
            if getattr(term, call) not in ("-", "in"):
                exists(getattr(term, call), syms, call)
        for type_ in [term.ret] + term.args:
            exists(type_, types, "term type")
    for group in plan.generated:
        check_group(plan, group)


def check_group(plan, group):
    check_call(plan, group.term, "ctor", "generated")
    args, bindings = len(plan.terms[group.term].args), len(group.bindings)
    for row in group.bindings + group.block:
        check_names(plan, row)
        if row.kind == "arg":
            exists(row.a, args, "arg")
        used = {"match": [row.a], "equal": [row.a, row.b], "loop": [row.a], "return": [row.a]}
        for at, binding in enumerate(used.get(row.kind, [])):
            exists(binding, bindings, row.kind, at)
        for binding in row.list:
            if binding is not None:
                exists(binding, bindings, "list of", row.kind)


def kind_of(plan, number_):
    if number_ < BUILTINS:
        return "builtin"
    at = number_ - BUILTINS
    return plan.types[at].kind if at < len(plan.types) else None


def check_call(plan, term, call, *what):
    exists(term, len(plan.terms), *what)
    need(getattr(plan.terms[term], call) != "-", 5, *what, call)


def check_names(plan, row):
    """What a binding or block row names, bindings and `arg` aside."""
    match row.kind:
        case "int":
            exists(row.a, BUILTINS + len(plan.types), "int")
        case "prim":
            exists(row.a, len(plan.syms), "prim")
        case "variant":
            kind = kind_of(plan, row.a)
            need(kind == "enum", 5, "variant type", kind)
            exists(row.b, len(plan.variants_of.get(row.a, [])), "variant")
        case "struct":
            kind = kind_of(plan, row.a)
            need(kind in STRUCTS, 5, "struct type", kind)
        case "extract":
            check_call(plan, row.a, "xtor", "extract")
        case "construct":
            check_call(plan, row.a, "ctor", "construct")
        case "return":
            exists(row.b, len(plan.positions), "return pos")


def list_length(plan, row):
    """How many values the list of a binding or an arm has to hold."""
    if row.kind in CONSTANTS or row.kind == "arg":
        return 0
    if row.kind == "construct":
        return len(plan.terms[row.a].args)
    if row.kind == "variant":
        return len(plan.variants_of[row.a][row.b].fields)
    return len(plan.types[row.a - BUILTINS].fields) if row.kind == "struct" else 1


def check_lengths(plan):
    for group in plan.generated:
        for row in group.bindings + group.block:
            if row.kind not in STEPS:
                expected = list_length(plan, row)
                need(len(row.list) == expected, 6, type(row).__name__, row.kind,
                     len(row.list) < expected)


def check_sources(plan):
    for group in plan.generated:
        for at, row in enumerate(group.bindings):
            need(all(source < at for source in row.list), 7, row.kind, at in row.list)
        indices = [row.a for row in group.bindings if row.kind == "arg"]
        need(len(set(indices)) == len(indices), 7, "arg twice")


def following(block):
    """Each row with the level of the next one, -1 after the last."""
    return zip(block, [row.level for row in block[1:]] + [-1])


def check_returns(plan):
    """Nothing stands below a return, so a next row of its level is a later step of its block."""
    for group in plan.generated:
        if not plan.terms[group.term].multi:
            for row, level in following(group.block):
                need(row.kind != "loop", 8, "loop")
                need(row.kind != "return" or level < row.level, 8, "return", row.level == 0)


def check_matches(plan):
    for group in plan.generated:
        for row, level in following(group.block):
            need(row.kind != "match" or level > row.level, 9, level == row.level)


def check_loops(plan):
    for group in plan.generated:
        for row in group.block:
            if row.kind == "loop":
                need(group.bindings[row.a].kind == "iter", 10, group.bindings[row.a].kind)


CHECKS = [check_most, check_existence, check_lengths, check_sources, check_returns,
          check_matches, check_loops]


def read_plan(content):
    """The plan that these bytes are; raises Refused with the lowest number that holds."""
    need(len(content) <= MOST_PLAN, 1)
    other = re.search(rb"[^\n\x20-\x7e]", content)
    need(not other, 2, other and min(other[0], b"\x80"))
    plan = read_shape(content.decode("ascii"))
    for check in CHECKS:
        check(plan)
    return plan


def verdict(content):
    try:
        read_plan(content)
    except Refused as refused:
        return b"refused %d\n" % refused.number
    return b"accepted\n"


def main(arguments):
    if arguments == ["many"]:
        for content in frames.read(sys.stdin.buffer):
            frames.write(sys.stdout.buffer, verdict(content))
    elif not arguments:
        sys.stdout.buffer.write(verdict(sys.stdin.buffer.read()))
    else:
        sys.exit("usage: reader.py [many]")


if __name__ == "__main__":
    main(sys.argv[1:])
