"""A second count of a plan's odd literals, from its rows and not from its text.

"a literal written is odd if its value lies outside its type's range, usize and
isize taken as 64 bits; u128, i128 and other types never." A literal counts as
often as it is written: an unbound binding once for each time that codegen.rs
comes to it through its readers.
"""

import take_off

# Bits of the builtin types by BuiltinType::ALL (sema.rs 171-185); bool, u128 and
# i128 are left out, as they never count.
UNSIGNED = {1: 8, 2: 16, 3: 32, 4: 64, 6: 64}
SIGNED = {7: 8, 8: 16, 9: 32, 10: 64, 12: 64}


def is_odd(type_, value):
    """Of an `int` row: its type, and its value as 128 bits of two's complement."""
    signed = value - (1 << 128) if value >> 127 else value
    if type_ in UNSIGNED:
        return not 0 <= signed < 1 << UNSIGNED[type_]
    if type_ in SIGNED:
        half = 1 << (SIGNED[type_] - 1)
        return not -half <= signed < half
    return False


class OddBody(take_off.Body):
    """The same walk over a block as for its lines: each expression and each pattern is met once
    for each time that it is written, with what is bound there."""

    def __init__(self, plan, group):
        super().__init__(plan, group)
        self.odd = 0

    def expression_lines(self, binding):
        self.odd += self.odd_through_sources(binding, {})
        return super().expression_lines(binding)

    def odd_through_sources(self, binding, known):
        if binding in self.is_bound:
            return 0
        if binding not in known:
            row = self.bindings[binding]
            odd = int(row.kind == "int" and is_odd(row.a, row.b))
            for source in row.list:
                odd += self.odd_through_sources(source, known)
            known[binding] = odd
        return known[binding]

    def pattern_lines(self, arm):
        self.odd += arm.kind == "int" and is_odd(arm.a, arm.b)
        return super().pattern_lines(arm)


def count(plan):
    """The count of the plan's answer, whole or terms: literals stand in the terms alone."""
    total = 0
    for group in plan.generated:
        body = OddBody(plan, group)
        body.block(None, 0)
        total += body.odd
    return total
