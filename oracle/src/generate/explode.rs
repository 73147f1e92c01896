//! Exploding plans: sources shared again and again.

use crate::base::*;
use crate::random::Random;
use crate::rows::*;
use crate::texts;

/// The text doubles, or more, with each binding.
pub fn explode(random: &mut Random) -> Plan {
    let multi = random.chance(50);
    let width = if random.chance(70) {
        2
    } else {
        random.range(3, 32)
    };
    let mut plan = base(random, multi, width);
    // Twelve doublings or so come near the buffer's length.
    let most = 1024.min(12_000 / width);
    let count = if random.chance(60) {
        random.range(3, 15)
    } else {
        random.range(16, most)
    };
    let mut bindings = vec![Binding::Argument {
        index: random.below(width),
    }];
    while bindings.len() < count {
        let source = bindings.len() - 1;
        bindings.push(shared(random, source, width));
    }
    let block = explode_block(random, multi, count - 1);
    plan.generated.push(Generated {
        term: GENERATED,
        bindings,
        block,
    });
    plan
}

fn shared(random: &mut Random, source: usize, width: usize) -> Binding {
    let low = source.saturating_sub(random.below(3));
    let fields = (0..width)
        .map(|_| random.range(low, source))
        .collect::<Vec<_>>();
    match random.below(8) {
        0 => Binding::MakeStruct { ty: NAMED, fields },
        1 => Binding::MakeStruct { ty: TUPLE, fields },
        2 => Binding::MakeVariant {
            ty: ENUM,
            variant: 1,
            fields,
        },
        3 => Binding::MakeSome { inner: source },
        _ => Binding::Constructor {
            term: random.range(UNARY, MULTI),
            parameters: fields,
        },
    }
}

fn explode_block(random: &mut Random, multi: bool, last: usize) -> Block {
    let mut step = match random.below(4) {
        0 => Step {
            bind_order: Vec::new(),
            check: ControlFlow::Equal {
                a: 0,
                b: last,
                body: Vec::new(),
            },
        },
        1 => {
            let arm = constant_arm(random);
            Step {
                bind_order: Vec::new(),
                check: ControlFlow::Match {
                    source: last,
                    arms: vec![arm],
                },
            }
        }
        _ => returned(random, last),
    };
    // Binding one on the way makes the text short again.
    if random.chance(40) {
        step.bind_order = vec![random.range(last / 2, last)];
    }
    let mut block = vec![step];
    if multi && random.chance(30) {
        block.push(returned(random, last));
    }
    block
}

fn constant_arm(random: &mut Random) -> Arm {
    let constraint = Constraint::ConstInt {
        ty: random.below(BUILTINS),
        val: texts::value(random),
    };
    Arm {
        constraint,
        bindings: Vec::new(),
        body: Vec::new(),
    }
}
