//! The count of odd literals, by a walk over the plan's rows.
//!
//! A literal counts as often as it is written. A bound binding is written by its name; any other
//! is written through its sources, again at each place. The walk visits each expression that is
//! written, so that its time is bounded by the text's length; it never looks at the text.

use crate::plan::{Arm, BindingKind, BindingRow, BlockRow, Generated, Number, Plan, RowKind, Step};

/// The odd literals in the text of all generated terms. Header, trait and types write none.
pub fn count(plan: &Plan) -> u64 {
    plan.generated.iter().map(count_term).sum()
}

/// "A literal written is odd if its value lies outside its type's range, usize and isize taken as
/// 64 bits; u128, i128 and other types never." The builtins are numbered as in `BuiltinType::ALL`.
pub fn is_odd(ty: Number, value: i128) -> bool {
    let unsigned = |bits: u32| value < 0 || value >> bits != 0;
    let signed = |bits: u32| value >> (bits - 1) != 0 && value >> (bits - 1) != -1;
    match ty {
        1 => unsigned(8),
        2 => unsigned(16),
        3 => unsigned(32),
        4 | 6 => unsigned(64),
        7 => signed(8),
        8 => signed(16),
        9 => signed(32),
        10 | 12 => signed(64),
        _ => false,
    }
}

fn count_term(generated: &Generated) -> u64 {
    let mut walk = Walk {
        bindings: &generated.bindings,
        rest: &generated.block,
        bound: vec![false; generated.bindings.len()],
        trail: Vec::new(),
    };
    walk.block(0)
}

struct Walk<'p> {
    bindings: &'p [BindingRow],
    rest: &'p [BlockRow],
    bound: Vec<bool>,
    /// The bindings that became bound, in that order, so that a scope's end can take them back.
    trail: Vec<Number>,
}

impl<'p> Walk<'p> {
    fn bind(&mut self, binding: Number) {
        if !std::mem::replace(&mut self.bound[binding as usize], true) {
            self.trail.push(binding);
        }
    }

    /// Runs a part of the walk; what it binds is no longer bound after it.
    fn scoped(&mut self, part: impl FnOnce(&mut Self) -> u64) -> u64 {
        let mark = self.trail.len();
        let count = part(self);
        for binding in self.trail.drain(mark..) {
            self.bound[binding as usize] = false;
        }
        count
    }

    fn expr(&self, binding: Number) -> u64 {
        if self.bound[binding as usize] {
            return 0;
        }
        let row = &self.bindings[binding as usize];
        match row.kind {
            BindingKind::Int { ty, value } => is_odd(ty, value).into(),
            _ => row.sources.iter().map(|&source| self.expr(source)).sum(),
        }
    }

    fn next_at(&mut self, level: Number) -> Option<&'p RowKind> {
        let (row, rest) = self.rest.split_first()?;
        if row.level != level {
            return None;
        }
        self.rest = rest;
        Some(&row.kind)
    }

    fn block(&mut self, level: Number) -> u64 {
        let mut count = 0;
        while let Some(row) = self.next_at(level) {
            let RowKind::Step { step, bind_order } = row else {
                unreachable!("refusal 3 has been judged")
            };
            for &binding in bind_order {
                count += self.expr(binding);
                self.bind(binding);
            }
            count += self.step(level, *step);
        }
        count
    }

    fn step(&mut self, level: Number, step: Step) -> u64 {
        match step {
            Step::Match { source } => self.match_step(level + 1, source),
            Step::Equal { a, b } => {
                self.expr(a) + self.expr(b) + self.scoped(|walk| walk.block(level + 1))
            }
            Step::Loop { result } => self.scoped(|walk| {
                walk.bind(result);
                walk.block(level + 1)
            }),
            Step::Return { result, .. } => self.expr(result),
        }
    }

    /// With one arm that isn't a constant, the pattern is written, and its bindings are bound,
    /// before the source; otherwise the source comes first.
    fn match_step(&mut self, level: Number, source: Number) -> u64 {
        if self.has_one_pattern_arm(level) {
            return self.arm(level, |walk| walk.expr(source)).unwrap_or(0);
        }
        let mut count = self.expr(source);
        while let Some(of_arm) = self.arm(level, |_| 0) {
            count += of_arm;
        }
        count
    }

    fn has_one_pattern_arm(&self, level: Number) -> bool {
        let below = self.rest.iter().take_while(|row| row.level >= level);
        let mut arms = below.filter(|row| row.level == level).map(|row| &row.kind);
        let is_pattern = matches!(
            arms.next(),
            Some(RowKind::Arm {
                arm: Arm::Variant { .. } | Arm::Struct(_) | Arm::Some,
                ..
            })
        );
        is_pattern && arms.next().is_none()
    }

    /// The next arm: its bindings, its literal, what is written right after the pattern, its body.
    fn arm(&mut self, level: Number, after_pattern: impl FnOnce(&Self) -> u64) -> Option<u64> {
        let RowKind::Arm { arm, bindings } = self.next_at(level)? else {
            unreachable!("refusal 3 has been judged")
        };
        let literal = match *arm {
            Arm::Int { ty, value } => is_odd(ty, value).into(),
            _ => 0,
        };
        Some(self.scoped(|walk| {
            bindings
                .iter()
                .flatten()
                .for_each(|&binding| walk.bind(binding));
            literal + after_pattern(walk) + walk.block(level + 1)
        }))
    }
}
