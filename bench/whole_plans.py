#!/usr/bin/env python3
"""whole_plans.py SHAPE..: plans for the benchmarks, as frames (oracle/README.md). A shape may have a size: `typical:4`.

worked      the worked plan of document 01, which has one rule
example     the plan of host/example
typical:N   N terms of 40 rules each: a match on an enum, a call, a return
literals:N  N iterator terms of 500 integer arms, each of which returns an integer
returns:N   an iterator term of N returns
deep:N      N matches nested in one another in an iterator term, the arms' bodies split
bottom:N    31 matches nested in one another, with N returns at level 62, the arms' bodies split
items       256 types, 1,024 variants, 512 terms, none generated
explode:N   N bindings, each a struct of two fields that are both the binding before it: a text of more than 2 ** N bytes
explodes:N  an iterator term of N returns, each of a binding as the last of explode:30
shares      an iterator term of 2,000 returns that bind nothing, each of the last of 1,024 bindings as those of explode:1023
searched    a chain of 400 bindings of 32 sources, searched anew by each of 1,000 matches of one arm, which each give a name
nested:KIND 1,024 bindings nested in one another, all of a kind that is written through its source
long:KIND   the same with a text that makes the plan 65,536 bytes long
deepest     1,024 nested bindings, returned below 31 nested matches, in a plan of 65,536 bytes
"""

import pathlib
import sys

ROOT = pathlib.Path(__file__).resolve().parent.parent
SYMS = ["Path", "pick", "loss", "gain", "Pair", "first", "second"]
TERM = "name pos ret multi partial ctor xtor infallible list"


def plan(options, syms, types, variants, terms, generated):
    def table(names, rows):
        return "\n".join([names, *rows]) + "\n\n"

    text = table("nopragmas log split threshold", [options])
    text += table("file", ["paths.isle"]) + table("sym", syms) + table("pos", ["paths.isle line 1", "paths.isle line 2"])
    text += table("kind name extern nodebug pos list", types) + table("type name shape list", variants) + table(TERM, terms)
    for term, bindings, rows in generated:
        text += table("term", [str(term)]) + table("kind a b list", bindings) + table("level kind a b list", rows)
    return text


def typical(n):
    """Arm k matches variant k, whose field is binding 3k + 1, calls `loss` on it, and returns the result."""
    bindings, rows = ["arg 0 - -"], ["0 match 0 - -"]
    for k in range(40):
        b = 3 * k + 1
        bindings += ["matchvariant 0 - 0", f"construct 1 - {b}", f"some - - {b + 1}"]
        rows += [f"1 variant 13 {k} {b}", f"2 return {b + 2} 1 {b + 1}"]
    syms = SYMS + [f"Path{k}" for k in range(40)]
    variants = [f"13 {len(SYMS) + k} named 5:1" for k in range(40)]
    terms = ["1 0 9 0 1 in - 0 13", "2 0 9 0 0 2 - 0 1"]
    return plan("0 0 0 -", syms, ["enum 0 0 0 0 -"], variants, terms, [(0, bindings, rows)] * n)


def literals(n):
    bindings, rows = ["arg 0 - -"], ["0 match 0 - -"]
    for k in range(500):
        bindings.append(f"int {k % 13} {k * 12345678901234567890 % 2**128:032x} -")
        rows += [f"1 int 4 {k:032x} -", f"2 return {k + 1} 1 -"]
    return plan("0 0 0 -", SYMS, [], [], ["1 0 4 1 0 in - 0 4"], [(0, bindings, rows)] * n)


def returns(n):
    rows = ["0 return 0 1 -"] * n
    return plan("0 0 0 -", SYMS, [], [], ["1 0 1 1 0 in - 0 1"], [(0, ["arg 0 - -"], rows)])


def deep_rows(n, last):
    """Row 2k matches, its two arms are at level 2k + 1; the second has the next match below it."""
    rows = []
    for k in range(n):
        rows += [f"{2 * k} match 0 - -", f"{2 * k + 1} int 1 {k:032x} -", f"{2 * k + 2} return 0 1 -", f"{2 * k + 1} int 1 {99:032x} -"]
    return rows + [f"{2 * n} {row}" for row in last]


def deep(n, returns=64):
    rows = deep_rows(n, ["return 0 1 -"] * returns)
    return plan("0 0 1 2", SYMS, [], [], ["1 0 1 1 0 in - 0 1"], [(0, ["arg 0 - -"], rows)])


def bottom(n):
    return deep(31, n)


def items():
    types = ["enum 0 0 0 0 -" if k % 2 else "named 0 0 0 0 5:1,6:2" for k in range(243)]
    variants = [f"{14 + 2 * (k % 121)} 5 {('unit -', 'tuple 1', 'named 5:1')[k % 3]}" for k in range(1024)]
    terms = [f"{k % 7} 0 {1 + k % 200} {k % 3 // 2} {k % 2} {2 + k % 4} {1 + k % 5} {k % 2} {1 + k % 9},{13 + k % 200}" for k in range(512)]
    return plan("0 0 0 -", SYMS, types, variants, terms, [])


def explode(n, returns=1, multi=0):
    bindings = ["arg 0 - -"] + [f"struct 13 - {k},{k}" for k in range(n)]
    rows = [f"0 return {n} 1 -"] * returns
    return plan("0 0 0 -", SYMS, ["named 4 0 0 0 5:13,6:13"], [], [f"1 0 13 {multi} 0 in - 0 1"], [(0, bindings, rows)])


def explodes(n):
    return explode(30, n, 1)


def shares():
    return explode(1023, 2000, 1)


def searched(chain=400, matches=1000):
    """Each match closes the frame of the one before it, so that its names are others, and its arm's own name is asked for too."""
    bindings = ["arg 0 - -"] + [f"struct 13 - {k},{','.join('0' * 31)}" for k in range(chain)] + ["bool 1 - -"]
    rows = [f"0 match {chain} - -", f"1 some - - {chain + 1}"] * matches
    fields = ",".join(["5:1"] * 32)
    return plan("0 0 0 -", SYMS, [f"named 4 0 0 0 {fields}"], [], ["1 0 1 1 0 in - 0 1"], [(0, bindings, rows)])


def nested(kind, more=()):
    """Binding k is written through binding k - 1, and none is bound."""
    words = {"some": "- -", "matchsome": "- -", "iter": "- -", "struct": "13 -", "variant": "13 0"}
    types = {"struct": ["named 4 0 0 0 5:1"], "variant": ["enum 0 0 0 0 -"]}
    variants = {"variant": ["13 5 named 5:1"]}
    bindings = ["arg 0 - -"] + [f"{kind} {words.get(kind, '0 -')} {k}" for k in range(1023)]
    terms = [f"1 0 1 0 0 in {'2' if kind == 'extract' else '-'} 0 1"]
    return plan("0 0 0 -", [*SYMS, *more], types.get(kind, []), variants.get(kind, []), terms, [(0, bindings, ["0 return 1023 1 -"])])


def lengthened(made):
    """The plan that `made` gives for a text that makes it 65,536 bytes long."""
    return made(["x" * (65536 - len(made([])) - 1)])


def long(kind):
    return lengthened(lambda more: nested(kind, more))


def deepest():
    bindings = ["arg 0 - -"] + [f"some - - {k}" for k in range(1023)]
    generated = [(0, bindings, deep_rows(31, ["return 1023 1 -"]))]
    return lengthened(lambda more: plan("0 0 1 2", SYMS + more, [], [], ["1 0 1 1 0 in - 0 1"], generated))


def worked():
    return (ROOT / "oracle/examples/worked.plan").read_text()


def example():
    return (ROOT / "host/example/rules.plan").read_text()


def main():
    shapes = {f.__name__: f for f in (worked, example, typical, literals, returns, deep, bottom, items, explode, explodes, shares, searched, nested, long, deepest)}
    if len(sys.argv) < 2:
        sys.exit(__doc__)
    for shape in sys.argv[1:]:
        name, _, size = shape.partition(":")
        text = shapes[name](*([int(size) if size.isdigit() else size] if size else []))
        sys.stdout.write(f"{len(text)}\n{text}")


main()
