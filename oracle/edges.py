"""Small plans for the edges that the plan's description lists; seeds reach them too seldom."""

WORD = "{:032x}".format
BITS = {1: 8, 2: 16, 3: 32, 4: 64, 5: 128, 6: 64, 7: 8, 8: 16, 9: 32, 10: 64, 11: 128, 12: 64}
SIGNED_FROM = 7  # i8, by BuiltinType::ALL
HEADS = ["file", "sym", "pos", "kind name extern nodebug pos list", "type name shape list",
         "name pos ret multi partial ctor xtor infallible list"]


def table(names, rows):
    return "\n".join([names, *rows, "", ""])


def plan(bindings, block, options="0 0 0 -", syms=("pick",), types=(), variants=(),
         term="0 0 1 1 0 in - 0 1"):
    """A plan that generates its one term, of iterator kind with one u8 argument if not given."""
    rows = [["a.isle"], syms, ["a.isle line 3"], types, variants, [term]]
    text = table("nopragmas log split threshold", [options])
    text += "".join(map(table, HEADS, rows))
    text += table("term", ["0"]) + table("kind a b list", bindings)
    return (text + table("level kind a b list", block)).encode()


def literals(type_):
    """Values around the type's range and at both ends of the crate's `val`."""
    low, high = 0, 1
    if type_ in BITS:
        low = -(1 << BITS[type_] - 1) if type_ >= SIGNED_FROM else 0
        high = low + (1 << BITS[type_]) - 1
    values = {low - 1, low, -1, 0, 1, high, high + 1, -(1 << 127), (1 << 127) - 1}
    words = [WORD(value % (1 << 128)) for value in sorted(values)]
    returns = [f"0 return {at} 0 -" for at in range(len(words))]
    arms = [line for word in words for line in (f"1 int {type_} {word} -", "2 return 0 0 -")]
    return plan([f"int {type_} {word} -" for word in words], [*returns, "0 match 0 - -", *arms],
                types=["prim 0 - - - -"])


def nested(levels):
    return [f"{level} equal 0 0 -" for level in range(levels)]


def edges():
    arg = ["arg 0 - -"]
    enums = {"types": ["enum 0 0 0 0 -", "enum 0 0 0 0 -"],
             "variants": ["13 0 unit -", "14 0 unit -", "14 0 tuple 1"]}
    quoted = {"syms": ['a"b\\c'], "options": "0 1 0 -", "term": "0 0 1 0 0 in - 0 1"}
    two_empty_arms = ["0 match 0 - -", "1 bool 0 - -", "1 bool 1 - -"]
    one_arm = ["0 match 0 - -", "1 bool 0 - -", "2 return 0 0 -"]
    two_arms = one_arm + ["1 bool 1 - -", "2 return 0 0 -"]
    plans = [literals(type_) for type_ in range(14)]
    plans += [plan([], []), plan(arg, one_arm, **quoted)]
    # Of these, the arms of the third alone split: it is of iterator kind, with bodies.
    plans += [plan(arg, two_empty_arms, "0 0 1 0"), plan(arg, one_arm, "0 0 1 0"),
              plan(arg, two_arms, "0 0 1 0"),
              plan(arg, two_arms, "0 0 1 0", term="0 0 1 0 1 in - 0 1")]
    # The loop's result is its name inside, and several lines where it isn't bound any more.
    plans += [plan(arg + ["struct 13 - 0", "iter - - 1"],
                   ["0 loop 2 - -", "1 return 2 0 -", "0 return 2 0 -"],
                   types=["tuple 0 0 0 0 1"])]
    plans += [plan(arg, nested(levels)) for levels in (64, 65)]
    plans += [plan(arg, ["0 equal 0 0 -", f"{level} equal 0 0 -"]) for level in (1, 2, 64, "01")]
    plans += [plan(arg + [f"{kind} {field} - 0"], []) for field in (255, 256, "00")
              for kind in ("matchtuple", "matchvariant", "extractstruct")]
    plans += [plan([f"int 1 {word} -"], [])
              for word in ("7" * 31, "7" * 33, "A" * 32, "-" + "7" * 31)]
    plans += [plan([f"variant {type_} {variant} -"], [], **enums)
              for type_, variant in ((13, 0), (13, 1), (14, 0), (14, 1), (14, 2), (1, 0))]
    plans += [plan(arg, [], f"0 0 1 {threshold}") for threshold in (0, 65535, 65536, "07", 10**20)]
    plans += [plan(arg, [f"0 equal {row} 0 -"]) for row in (0, 1, 2**32, 2**64, "9" * 400)]
    return plans
