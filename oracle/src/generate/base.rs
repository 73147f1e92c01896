//! A plan with a few types and terms of known numbers, which plans of exact sizes are built on.

use crate::environment::threshold;
use crate::random::Random;
use crate::rows::*;
use crate::texts::{self, Style};

pub const ENUM: usize = BUILTINS;
pub const NAMED: usize = BUILTINS + 1;
pub const TUPLE: usize = BUILTINS + 2;
/// Terms of `base` by number: the generated one first, then one of each signature.
pub const GENERATED: usize = 0;
pub const UNARY: usize = 1;
pub const PARTIAL: usize = 2;
pub const MULTI: usize = 3;

/// `width` fields for the struct types and the enum's second variant, and as many arguments for the
/// terms.
pub fn base(random: &mut Random, multi: bool, width: usize) -> Plan {
    let style = Style { odd: 10, long: 0 };
    let mut plan = Plan::empty();
    plan.options.log = random.chance(30);
    plan.options.nopragmas = random.chance(50);
    plan.options.split = random.chance(50);
    plan.options.threshold = threshold(random);
    plan.syms = (0..6).map(|_| texts::sym(random, style)).collect();
    plan.positions = (0..3).map(|_| texts::pos(random, style)).collect();
    let declared = Declared {
        is_extern: random.chance(30),
        is_nodebug: random.chance(30),
        pos: 0,
    };
    let fields = |random: &mut Random| (0..width).map(|_| random.below(16)).collect::<Vec<_>>();
    let named = fields(random)
        .into_iter()
        .map(|ty| (random.below(6), ty))
        .collect();
    plan.types = vec![
        Type {
            name: 0,
            kind: TypeKind::Enum(declared),
        },
        Type {
            name: 1,
            kind: TypeKind::Struct(declared, Fields::Struct(named)),
        },
        Type {
            name: 2,
            kind: TypeKind::Struct(declared, Fields::Tuple(fields(random))),
        },
    ];
    plan.variants = vec![
        Variant {
            ty: ENUM,
            name: 3,
            fields: Fields::Unit,
        },
        Variant {
            ty: ENUM,
            name: 4,
            fields: Fields::Tuple(fields(random)),
        },
    ];
    plan.terms = vec![
        term(random, multi, false, width),
        term(random, false, false, width),
        term(random, false, true, width),
        term(random, true, false, width),
    ];
    plan
}

fn term(random: &mut Random, multi: bool, partial: bool, width: usize) -> Term {
    let function = |random: &mut Random| match random.below(2) {
        0 => Function::Internal,
        _ => Function::External(random.below(6)),
    };
    Term {
        name: random.below(6),
        pos: random.below(3),
        ret: random.below(16),
        multi,
        partial,
        ctor: function(random),
        xtor: function(random),
        infallible: random.chance(50),
        args: (0..width).map(|_| random.below(16)).collect(),
    }
}

pub fn returned(random: &mut Random, result: usize) -> Step {
    let check = ControlFlow::Return {
        result,
        pos: random.below(3),
    };
    Step {
        bind_order: Vec::new(),
        check,
    }
}
