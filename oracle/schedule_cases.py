"""Small plans with the sheets that the readings of the schedule check state for them.

A case's name begins with its reading, A1 to A26, or with `refusal`: then it is document 01's small
example of that number. If nothing else is said, term 0 is generated.
"""

from collections import namedtuple

import edges

Case = namedtuple("Case", "name plan sheet")

TERMS = ["0 0 1 1 0 in - 0 1",   # 0: g, of iterator kind, internal
         "1 0 1 1 0 1 1 0 1",    # 1: it, of iterator kind, external
         "2 0 1 0 0 2 2 1 1",    # 2: pl, plain, external
         "0 0 1 0 1 in - 0 1",   # 3: g again, of option kind
         "1 0 1 1 1 1 1 1 1",    # 4: it, also partial and infallible
         "1 0 1 1 0 - in 0 1"]   # 5: it, with an internal extractor alone
ENUM = "enum 3 0 0 0 -"          # type 13, with one variant of two u8
STRUCT = "tuple 3 0 0 0 1,1"     # type 14
SYMS = ["g", "it", "pl", "S", "V"]
TABLES = [[], SYMS, ["p"], [ENUM, STRUCT], ["13 4 tuple 1,1"], TERMS]
CALL = ["arg 0 - -", "construct 1 - 0"]
SOME = ["arg 0 - -", "some - - 0"]
ITER = CALL + ["iter - - 1"]
SOME_CALL = CALL + ["some - - 1"]


def plan(*groups, options="0 0 0 -", tables=TABLES):
    """A plan that generates these (term, bindings, rows)."""
    text = edges.table("nopragmas log split threshold", [options])
    text += "".join(map(edges.table, edges.HEADS, tables))
    for term, bindings, block in groups:
        text += edges.table("term", [str(term)]) + edges.table("kind a b list", bindings)
        text += edges.table("level kind a b list", block)
    return text.encode()


def sheet(*lines):
    return "".join(line + "\n" for line in ("term row fault", *lines)).encode()


def case(name, bindings, rows, *lines):
    return Case(name, plan((0, bindings, rows)), sheet(*lines))


def refusal(number, bindings=CALL, rows=(), term=0):
    return Case(f"refusal {number}", plan((term, bindings, rows)), b"refused %d\n" % number)


def doubled(first, count):
    """Bindings that each name the one before them twice, the first of them `first`."""
    return [f"struct 14 - {at},{at}" for at in range(first - 1, first - 1 + count)]


def nested(first, last):
    return [f"some - - {at - 1}" for at in range(first, last + 1)]


RETURN_CALL = ["0 return 1 0 -"]
# Splits where it is asked for: two arms with bodies, in a term of iterator kind.
TWO_ARMS = ["0 match 0 - -", "1 some - - 1", "2 loop 2 - -", "1 bool 0 - -", "2 loop 2 - -"]

REFUSED = [
    Case("refusal 1", b"-" * 65537, b"refused 1\n"),
    Case("refusal 2", b"\t", b"refused 2\n"),
    Case("refusal 3", b"", b"refused 3\n"),
    refusal(4, rows=["0 return 0 0 " + ",".join(["0"] * 33)]),
    refusal(5, ["variant 1 0 -"]),
    refusal(6, rows=["0 match 0 - -", "1 some - - -"]),
    refusal(7, ["some - - 0"]),
    refusal(8, rows=["0 return 0 0 -"] * 2, term=3),
    refusal(9, rows=["0 match 0 - -"]),
    refusal(10, rows=["0 loop 0 - -"]),
]

WHOLE_SHEET = [
    case("A1 a text beyond any memory", ["arg 0 - -"] + doubled(1, 100), ["0 return 100 0 -"]),
    case("A1 the same with a call", CALL + doubled(2, 100), ["0 return 101 0 -"], "0 0 b"),
    case("A1 1,024 nested bindings", CALL + nested(2, 1023), ["0 return 1023 0 -"], "0 0 b"),
    case("A1 1,024 nested bindings, own", ["arg 0 - -"] + nested(1, 1023),
         ["0 match 1023 - -", "1 some - - 0"], "0 0 c"),
    Case("A3 nothing generated", plan(), sheet()),
    case("A3 empty block", CALL, []),
    case("A3 no bindings", [], []),
    case("A4", ITER, ["0 loop 2 - -"], "0 0 a"),
    Case("A5", plan((3, CALL, RETURN_CALL), (0, CALL, RETURN_CALL)), sheet("3 0 b", "0 0 b")),
    Case("A6", plan((0, ITER, ["0 loop 2 - -"]), (0, ITER, ["0 loop 2 - -"])),
         sheet("0 0 a", "0 0 a")),
    case("A7", CALL, ["0 equal 0 0 -", "1 return 1 0 1", "0 return 1 0 -"], "0 2 b"),
    case("A7 arms count", CALL, ["0 match 0 - -", "1 bool 0 - -", "1 bool 1 - -", *RETURN_CALL],
         "0 3 b"),
    case("A8 b and c", CALL + ["struct 14 - 0,1"], ["0 match 2 - -", "1 some - - 0"],
         "0 0 b", "0 0 c"),
    case("A9 both sides", CALL, ["0 equal 1 1 -"], "0 0 b"),
    case("A9 members and head", SOME_CALL + ["some - - 1"], ["0 return 1 0 2,3"], "0 0 b"),
]

BOUND = [
    case("A10", ITER, ["0 loop 2 - -", "0 loop 2 - -"], "0 0 a", "0 1 a"),
    case("A11 a list, later in its block", ITER, ["0 equal 0 0 1", "0 loop 2 - -"]),
    case("A11 a list, below its step", ITER, ["0 equal 0 0 1", "1 loop 2 - -"]),
    case("A11 a list, after its block", ITER, ["0 equal 0 0 -", "1 equal 0 0 1", "0 loop 2 - -"],
         "0 2 a"),
    case("A11 an arm", ITER,
         ["0 match 0 - -", "1 some - - 1", "2 loop 2 - -", "0 loop 2 - -"], "0 3 a"),
    case("A11 the next arm", ITER, TWO_ARMS, "0 4 a"),
    case("A11 a loop", ITER + ["iter - - 2"],
         ["0 loop 2 - 1", "1 loop 3 - -", "0 loop 3 - -"], "0 2 a"),
    Case("A11 the next term", plan((0, ITER, ["0 equal 0 0 1"]), (0, ITER, ["0 loop 2 - -"])),
         sheet("0 0 a")),
    *(Case(f"A11 options {options}", plan((0, ITER, TWO_ARMS), options=options), sheet("0 4 a"))
      for options in ("0 0 1 0", "1 1 1 -", "1 1 0 0")),
]

A = [
    case("A12", ITER, ["0 loop 2 - -", "1 loop 2 - -"], "0 0 a", "0 1 a"),
    case("A13 listed", ITER, ["0 loop 2 - 1"]),
    case("A13 not listed", ITER, ["0 loop 2 - -"], "0 0 a"),
    case("A14 an argument", ["arg 0 - -", "iter - - 0"], ["0 loop 1 - -"], "0 0 a"),
    case("A14 a listed argument", ["arg 0 - -", "iter - - 0"], ["0 loop 1 - 0"]),
    case("A14 a listed bool", ["bool 1 - -", "iter - - 0"], ["0 loop 1 - 0"]),
    case("A15", ITER, ["0 loop 2 - 2"], "0 0 a", "0 0 b"),
]

B = [
    Case("A16 in a term of option kind", plan((3, CALL, RETURN_CALL)), sheet("3 0 b")),
    *(case(f"A16 {call}", ["arg 0 - -", call], RETURN_CALL, "0 0 b")
      for call in ("construct 0 - 0", "construct 1 - 0", "construct 4 - 0",
                   "extract 1 - 0", "extract 4 - 0", "extract 5 - 0")),
    *(case(f"A16 {call}", ["arg 0 - -", call], RETURN_CALL)
      for call in ("construct 2 - 0", "construct 3 - 0", "extract 2 - 0")),
    case("A17 not written", CALL, ["0 return 0 0 -"]),
    case("A17 below a bound binding", SOME_CALL,
         ["0 match 0 - -", "1 some - - 2", "2 return 2 0 -"]),
    case("A17 every source", CALL + ["struct 14 - 1,0", "struct 14 - 0,1"],
         ["0 return 2 0 -", "0 return 3 0 -"], "0 0 b", "0 1 b"),
    case("A18 left side", CALL, ["0 equal 1 0 -"], "0 0 b"),
    case("A18 right side", CALL, ["0 equal 0 1 -"], "0 0 b"),
    case("A18 result", CALL, RETURN_CALL, "0 0 b"),
    case("A18 loop", ITER, ["0 loop 2 - -"], "0 0 a"),
    case("A18 arms", SOME_CALL, ["0 match 0 - -", "1 some - - 1", "1 some - - 2"]),
    case("A19 listed later", SOME_CALL, ["0 equal 0 0 2,1"], "0 0 b"),
    case("A19 listed before", SOME_CALL, ["0 equal 0 0 1,2"]),
    case("A19 listed in another step", CALL, ["0 equal 1 0 -", "0 equal 0 0 1"], "0 0 b"),
    case("A20", CALL + ["construct 1 - 1"], ["0 return 2 0 2"], "0 0 b"),
    case("A20 a plain call around", CALL + ["construct 2 - 1"], ["0 return 2 0 2"], "0 0 b"),
    case("A20 both listed", CALL + ["construct 1 - 1"], ["0 return 2 0 1,2"]),
    case("A21 twice in a list", CALL, ["0 return 1 0 1,1"]),
    case("A21 listed again", CALL, ["0 equal 0 0 1", "1 return 1 0 1"]),
    case("A21 bound by a pattern", CALL, ["0 match 0 - -", "1 some - - 1", "2 return 1 0 1"]),
    case("A21 bound by a loop", ITER, ["0 loop 2 - -", "1 return 2 0 2"], "0 0 a"),
    case("A22 one arm", CALL, ["0 match 1 - -", "1 some - - 1"], "0 0 c"),
    case("A22 a constant arm", CALL, ["0 match 1 - -", "1 bool 1 - -"], "0 0 b"),
    case("A22 two arms", CALL, ["0 match 1 - -", "1 some - - 1", "1 some - - 1"], "0 0 b"),
    case("A22 one arm, names nothing", CALL, ["0 match 1 - -", "1 some - - _"], "0 0 b"),
]

C = [
    case("A23 some", CALL, ["0 match 0 - -", "1 some - - 0"], "0 0 c"),
    case("A23 variant", CALL, ["0 match 0 - -", "1 variant 13 0 0,_"], "0 0 c"),
    case("A23 struct", CALL, ["0 match 0 - -", "1 struct 14 - _,0"], "0 0 c"),
    case("A23 an equal second arm", CALL, ["0 match 0 - -", "1 some - - 0", "1 some - - 0"]),
    case("A23 another second arm", CALL, ["0 match 0 - -", "1 some - - 0", "1 bool 0 - -"]),
    case("A23 a second arm after rows", CALL,
         ["0 match 0 - -", "1 some - - 0", "2 return 0 0 -", "1 bool 0 - -"]),
    case("A23 the arm of a next match", CALL,
         ["0 match 0 - -", "1 some - - 0", "0 match 0 - -", "1 some - - 0"], "0 0 c", "0 2 c"),
    case("A24 through a source", SOME, ["0 match 1 - -", "1 some - - 0"], "0 0 c"),
    case("A24 below a bound binding", SOME, ["0 match 1 - 1", "1 some - - 0"]),
    case("A24 below the arm's own", SOME, ["0 match 1 - -", "1 struct 14 - 1,0"], "0 0 c"),
    case("A24 below a binding bound before", SOME + ["some - - 1"],
         ["0 match 2 - 1", "1 struct 14 - 0,1"]),
    case("A24 names nothing", SOME, ["0 match 1 - -", "1 some - - _"]),
    case("A24 named twice", SOME, ["0 match 1 - -", "1 struct 14 - 0,0"], "0 0 c"),
    case("A24 the source among the own one's sources", SOME, ["0 match 0 - -", "1 some - - 1"]),
    case("A24 an own iterator call", SOME_CALL, ["0 match 2 - -", "1 some - - 1"], "0 0 c"),
    case("A25", SOME, ["0 match 0 - 0", "1 some - - 0"]),
    case("A25 an outer list", SOME, ["0 equal 0 0 0", "1 match 0 - -", "2 some - - 0"]),
    case("A25 an outer pattern", SOME,
         ["0 match 1 - -", "1 some - - 0", "2 match 0 - -", "3 some - - 0"], "0 0 c"),
    case("A25 an outer loop", ITER, ["0 loop 2 - 1", "1 match 2 - -", "2 some - - 2"]),
    case("A25 after the outer list's block", SOME,
         ["0 equal 0 0 -", "1 equal 0 0 0", "0 match 0 - -", "1 some - - 0"], "0 2 c"),
]


def long_sheet():
    """A26: a plan of 65,521 bytes whose sheet has 75,564."""
    bindings = ["construct 0 - -", "some - - 0", "iter - - 0"]
    tables = [[], ["g"], ["p"], [], [], ["0 0 1 1 0 in - 0 -"] * 101]
    groups, lines = [], []
    for pairs in (1024, 1024, 382):
        groups.append((100, bindings, ["0 loop 2 - -", "1 loop 2 - 1"] * pairs))
        for row in range(0, 2 * pairs, 2):
            lines += [f"100 {row} a", f"100 {row + 1} a", f"100 {row + 1} b"]
    return Case("A26", plan(*groups, tables=tables), sheet(*lines))


CASES = REFUSED + WHOLE_SHEET + BOUND + A + B + C + [long_sheet()]
