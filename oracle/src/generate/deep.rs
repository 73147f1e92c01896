//! Deeply nested plans: in levels, or in sources.

use crate::base::*;
use crate::random::Random;
use crate::rows::*;
use crate::texts;

pub fn deep(random: &mut Random) -> Plan {
    if random.chance(50) {
        deep_levels(random)
    } else {
        deep_sources(random)
    }
}

/// Steps and arms, each below the one before, to level 63 or a little less.
fn deep_levels(random: &mut Random) -> Plan {
    let multi = random.chance(70);
    let mut plan = base(random, multi, 1);
    let bindings = vec![
        Binding::Argument { index: 0 },
        Binding::ConstInt {
            ty: random.below(16),
            val: texts::value(random),
        },
        Binding::Constructor {
            term: MULTI,
            parameters: vec![0],
        },
        Binding::Iterator { source: 2 },
        Binding::MatchSome { source: 0 },
        Binding::MakeStruct {
            ty: NAMED,
            fields: vec![1],
        },
    ];
    let last = if random.chance(60) {
        63
    } else {
        random.range(20, 63)
    };
    let block = vec![chain(random, multi, 0, last)];
    plan.generated.push(Generated {
        term: GENERATED,
        bindings,
        block,
    });
    plan
}

fn chain(random: &mut Random, multi: bool, level: usize, last: usize) -> Step {
    let bind_order = if random.chance(25) {
        vec![random.below(6)]
    } else {
        Vec::new()
    };
    let check = match random.below(4) {
        0 | 1 if level < last => {
            let count = random.range(1, 3);
            let heavy = random.below(count);
            let source = random.below(6);
            let arms = (0..count).map(|i| chain_arm(random, multi, level + 1, last, i == heavy));
            ControlFlow::Match {
                source,
                arms: arms.collect(),
            }
        }
        2 if multi => ControlFlow::Loop {
            result: 3,
            body: chain_body(random, multi, level, last),
        },
        _ if level == last && random.chance(50) => return returned(random, 5),
        _ => {
            let (a, b) = (random.below(6), random.below(6));
            ControlFlow::Equal {
                a,
                b,
                body: chain_body(random, multi, level, last),
            }
        }
    };
    Step { bind_order, check }
}

fn chain_body(random: &mut Random, multi: bool, level: usize, last: usize) -> Block {
    if level == last {
        return Vec::new();
    }
    let mut body = vec![chain(random, multi, level + 1, last)];
    let is_return = matches!(body[0].check, ControlFlow::Return { .. });
    if (multi || !is_return) && random.chance(15) {
        body.push(returned(random, 0));
    }
    body
}

fn chain_arm(random: &mut Random, multi: bool, level: usize, last: usize, heavy: bool) -> Arm {
    let (constraint, count) = match random.below(4) {
        0 => (
            Constraint::ConstBool {
                val: random.chance(50),
            },
            0,
        ),
        1 => (
            Constraint::Variant {
                ty: ENUM,
                variant: 1,
            },
            1,
        ),
        2 => (
            Constraint::Struct {
                ty: *random.pick(&[NAMED, TUPLE]),
            },
            1,
        ),
        _ => (Constraint::Some, 1),
    };
    let bindings = (0..count)
        .map(|_| random.chance(70).then(|| random.below(6)))
        .collect();
    let body = if heavy {
        chain_body(random, multi, level, last)
    } else {
        Vec::new()
    };
    Arm {
        constraint,
        bindings,
        body,
    }
}

/// Up to 1,024 bindings, each the source of the next one.
fn deep_sources(random: &mut Random) -> Plan {
    let multi = random.chance(40);
    let mut plan = base(random, multi, 1);
    let only = random.chance(50).then(|| random.below(KINDS));
    // Fields stand on lines of their own, indented by the nesting: those texts grow with its
    // square.
    let in_lines = only.is_some_and(|kind| kind < 2);
    let count = match random.below(3) {
        0 => 1024,
        1 => random.range(1000, 1024),
        _ => random.range(50, 1000),
    };
    let count = if in_lines && random.chance(80) {
        random.range(20, 110)
    } else {
        count
    };
    let mut bindings = vec![Binding::Argument { index: 0 }];
    while bindings.len() < count {
        let kind = only.unwrap_or_else(|| random.range(if count > 110 { 2 } else { 0 }, KINDS - 1));
        bindings.push(over(random, kind, bindings.len() - 1));
    }
    let result = bindings.len() - 1;
    let mut step = returned(random, result);
    if random.chance(30) {
        step.bind_order = vec![random.below(count), result];
    }
    plan.generated.push(Generated {
        term: GENERATED,
        bindings,
        block: vec![step],
    });
    plan
}

/// The kinds of a binding with one source.
const KINDS: usize = 12;

fn over(random: &mut Random, kind: usize, source: usize) -> Binding {
    let field = random.below(256);
    match kind {
        0 => Binding::MakeStruct {
            ty: *random.pick(&[NAMED, TUPLE]),
            fields: vec![source],
        },
        1 => Binding::MakeVariant {
            ty: ENUM,
            variant: 1,
            fields: vec![source],
        },
        2 => Binding::MakeSome { inner: source },
        3 => Binding::MatchSome { source },
        4 => Binding::MatchTuple { source, field },
        5 => Binding::MatchVariant { source, field },
        6 => Binding::ExtractStruct { source, field },
        7 => Binding::Iterator { source },
        8 => Binding::Extractor {
            term: random.range(UNARY, MULTI),
            parameter: source,
        },
        9 => Binding::Constructor {
            term: UNARY,
            parameters: vec![source],
        },
        10 => Binding::Constructor {
            term: PARTIAL,
            parameters: vec![source],
        },
        _ => Binding::Constructor {
            term: MULTI,
            parameters: vec![source],
        },
    }
}
