//! Plans at the limits, and plans whose text has about the buffer's length.

use crate::base::*;
use crate::bindings::Bindings;
use crate::blocks::Blocks;
use crate::environment::{Sizes, environment};
use crate::random::Random;
use crate::rows::*;
use crate::valid::{self, MOST_BYTES, SMALL};

pub fn limits(random: &mut Random) -> Plan {
    let wide = Sizes {
        syms: (5, 20),
        positions: (2, 9),
        ..SMALL
    };
    match random.below(21) {
        0 => valid::sized(
            random,
            &Sizes {
                types: (243, 243),
                ..wide
            },
        ),
        1 => valid::sized(
            random,
            &Sizes {
                types: (5, 40),
                variants: (1024, 1024),
                fields: 3,
                ..wide
            },
        ),
        2 => valid::sized(
            random,
            &Sizes {
                terms: (512, 512),
                generated: (1, 2),
                ..wide
            },
        ),
        3 => valid::sized(
            random,
            &Sizes {
                terms: (2, 5),
                generated: (64, 64),
                rows: (0, 8),
                bindings: (0, 5),
                ..wide
            },
        ),
        4 => valid::sized(
            random,
            &Sizes {
                files: (64, 64),
                ..wide
            },
        ),
        5 => valid::sized(
            random,
            &Sizes {
                syms: (2048, 2048),
                terms: (1, 5),
                ..wide
            },
        ),
        6 => valid::sized(
            random,
            &Sizes {
                positions: (2048, 2048),
                terms: (1, 5),
                ..wide
            },
        ),
        7 => most_bindings(random),
        8 => most_rows(random),
        9 => most_arms(random),
        10 => full_lists(random),
        11..=13 => most_bytes(random),
        _ => around_buffer(random),
    }
}

/// 1,024 bindings, few of them written.
fn most_bindings(random: &mut Random) -> Plan {
    let sizes = Sizes {
        terms: (2, 5),
        generated: (1, 1),
        bindings: (1024, 1024),
        wild: 100,
        fields: 2,
        rows: (1, 60),
        ..SMALL
    };
    valid::sized(random, &sizes)
}

/// 2,048 block rows of any kind.
fn most_rows(random: &mut Random) -> Plan {
    let sizes = Sizes {
        level: random.range(2, 12),
        terms: (1, 4),
        syms: (2, 6),
        bindings: (4, 8),
        expression: 40,
        ..SMALL
    };
    let mut plan = environment(random, &sizes);
    if plan.terms.is_empty() {
        return plan;
    }
    plan.terms[0].ctor = Function::Internal;
    let mut bindings = Bindings::new(random, &plan, &sizes, &plan.terms[0]);
    for _ in 0..6 {
        bindings.add_wild();
    }
    let mut blocks = Blocks {
        bindings,
        rows: 2048,
    };
    let block = blocks.wild_rows();
    let bindings = blocks.bindings.rows;
    plan.generated.push(Generated {
        term: 0,
        bindings,
        block,
    });
    plan
}

/// One match with 2,047 arms: 2,048 rows whose text is short.
fn most_arms(random: &mut Random) -> Plan {
    let multi = random.chance(50);
    let mut plan = base(random, multi, 1);
    let arm = |random: &mut Random| {
        let constraint = match random.below(3) {
            0 => Constraint::ConstBool {
                val: random.chance(50),
            },
            1 => Constraint::ConstPrim { val: 0 },
            _ => Constraint::Some,
        };
        let bindings = if matches!(constraint, Constraint::Some) {
            vec![None]
        } else {
            Vec::new()
        };
        Arm {
            constraint,
            bindings,
            body: Vec::new(),
        }
    };
    let arms = (0..2047).map(|_| arm(random)).collect();
    let check = ControlFlow::Match { source: 0, arms };
    let block = vec![Step {
        bind_order: Vec::new(),
        check,
    }];
    let bindings = vec![Binding::Argument { index: 0 }];
    plan.generated.push(Generated {
        term: GENERATED,
        bindings,
        block,
    });
    plan
}

/// Every kind of list with 32 values.
fn full_lists(random: &mut Random) -> Plan {
    let multi = random.chance(50);
    let mut plan = base(random, multi, 32);
    let mut bindings: Vec<Binding> = (0..32).map(|index| Binding::Argument { index }).collect();
    let any = |random: &mut Random| (0..32).map(|_| random.below(32)).collect::<Vec<_>>();
    bindings.push(Binding::MakeStruct {
        ty: NAMED,
        fields: any(random),
    });
    bindings.push(Binding::MakeStruct {
        ty: TUPLE,
        fields: any(random),
    });
    bindings.push(Binding::MakeVariant {
        ty: ENUM,
        variant: 1,
        fields: any(random),
    });
    bindings.push(Binding::Constructor {
        term: UNARY,
        parameters: any(random),
    });
    bindings.push(Binding::Constructor {
        term: MULTI,
        parameters: any(random),
    });
    let arm = |random: &mut Random, constraint| {
        let bindings = (0..32)
            .map(|_| random.chance(80).then(|| random.below(37)))
            .collect();
        let result = random.range(32, 36);
        Arm {
            constraint,
            bindings,
            body: vec![returned(random, result)],
        }
    };
    let arms = vec![
        arm(random, Constraint::Struct { ty: NAMED }),
        arm(random, Constraint::Struct { ty: TUPLE }),
        arm(
            random,
            Constraint::Variant {
                ty: ENUM,
                variant: 1,
            },
        ),
    ];
    let bind_order = (0..32).map(|_| random.below(37)).collect();
    let check = ControlFlow::Match {
        source: random.below(37),
        arms,
    };
    let block = vec![Step { bind_order, check }];
    plan.generated.push(Generated {
        term: GENERATED,
        bindings,
        block,
    });
    plan
}

/// A plan of 65,536 bytes or a few less: the difference is an unused position.
fn most_bytes(random: &mut Random) -> Plan {
    let mut plan = valid::plan(random, "large");
    let wanted = MOST_BYTES - random.pick(&[0, 0, 1, 2]);
    let length = plan.bytes().len();
    if length + 2 <= wanted && plan.positions.len() < 2048 {
        plan.positions.push("~".repeat(wanted - length - 1));
    }
    plan
}

// Texts around the buffer's length.

/// The length of the header and trait without files, pragmas or external terms.
const WHOLE_FIXED: usize = 2683;
/// The length of the pragmas.
const PRAGMAS: usize = 212;

/// A plan whose whole text, or terms text, has the buffer's length, or a little more or less.
fn around_buffer(random: &mut Random) -> Plan {
    let whole = random.chance(60);
    let mut plan = Plan::empty();
    plan.options.nopragmas = random.chance(50);
    plan.options.log = random.chance(50);
    plan.files = (0..random.below(5))
        .map(|i| format!("file{i}.isle"))
        .collect();
    plan.syms = vec!["pick".to_string(), "x".repeat(random.range(1, 200))];
    plan.positions = vec!["a.isle line 3".to_string(), "~".to_string()];
    let count = random.range(1, 800);
    plan.terms = vec![Term {
        name: 0,
        pos: 0,
        ret: 1,
        multi: true,
        partial: false,
        ctor: Function::Internal,
        xtor: Function::Absent,
        infallible: false,
        args: Vec::new(),
    }];
    let wanted = MOST_BYTES - 2 + random.pick(&[0, 1, 1, 2, 2, 3, 3, 4])
        - if whole { whole_head(&plan) } else { 0 };
    let each = return_length(&plan, 0);
    let count = count.min((wanted - 2000) / each);
    let length = SIGNATURE + count * each + return_length(&plan, 1);
    // The last return's position, written once or twice, makes up the difference.
    let written = if plan.options.log { 2 } else { 1 };
    let missing = wanted - length;
    if missing / written > 40_000 {
        return around_buffer(random);
    }
    plan.positions[1] = "~".repeat(1 + missing / written);
    add_returns(&mut plan, count);
    plan
}

fn whole_head(plan: &Plan) -> usize {
    let files: usize = plan
        .files
        .iter()
        .map(|file| "// - \n".len() + file.len())
        .sum();
    WHOLE_FIXED + files + if plan.options.nopragmas { 0 } else { PRAGMAS }
}

/// The lines of the term `pick` that stand once.
const SIGNATURE: usize = "\n// Generated as internal constructor for term pick.\n\
    pub fn constructor_pick<C: Context>(\n    ctx: &mut C,\n\
    \x20   returns: &mut (impl Extend<u8> + Length),\n) -> () {\n}\n"
    .len();

/// The length of a return of sym 1 with position `pos`.
fn return_length(plan: &Plan, pos: usize) -> usize {
    let (sym, pos) = (plan.syms[1].len(), plan.positions[pos].len());
    let lines = "    // Rule at .\n    returns.extend(Some());\n\
        \x20   if returns.len() >= MAX_ISLE_RETURNS { return; }\n";
    let log = "    log::debug!(\"ISLE {} {}\", \"pick\", \"\");\n".len() + pos;
    lines.len() + pos + sym + if plan.options.log { log } else { 0 }
}

fn add_returns(plan: &mut Plan, count: usize) {
    let step = |pos| Step {
        bind_order: Vec::new(),
        check: ControlFlow::Return { result: 0, pos },
    };
    let mut block: Block = (0..count).map(|_| step(0)).collect();
    block.push(step(1));
    let bindings = vec![Binding::ConstPrim { val: 1 }];
    plan.generated.push(Generated {
        term: 0,
        bindings,
        block,
    });
}
