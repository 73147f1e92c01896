//! Plans that refusals 1 to 10 accept, by profile.

use crate::blocks;
use crate::deep;
use crate::environment::{self, Sizes};
use crate::explode;
use crate::limits;
use crate::random::Random;
use crate::rows::{Function, Generated, Plan};
use crate::texts::Style;

pub const MOST_BYTES: usize = 65_536;

pub const SMALL: Sizes = Sizes {
    files: (0, 2),
    syms: (1, 14),
    positions: (1, 4),
    types: (0, 5),
    variants: (0, 8),
    terms: (0, 5),
    generated: (0, 2),
    fields: 4,
    style: Style { odd: 12, long: 0 },
    bare: 0,
    multi: 30,
    split: 50,
    rows: (0, 14),
    level: 12,
    bindings: (1, 12),
    wild: 45,
    replaced: 12,
    integers: 5,
    expression: 200,
};

/// The profiles, each with its share in the mix of a run without `--profile`.
pub const PROFILES: &[(&str, usize)] = &[
    ("small", 290),
    ("types", 50),
    ("terms", 50),
    ("expr", 80),
    ("blocks", 100),
    ("iterators", 90),
    ("split", 70),
    ("literals", 50),
    ("texts", 60),
    ("deep", 40),
    ("large", 40),
    ("limits", 60),
    ("explode", 20),
];

pub fn profile(random: &mut Random) -> &'static str {
    let shares: Vec<usize> = PROFILES.iter().map(|&(_, share)| share).collect();
    PROFILES[random.weighted(&shares)].0
}

/// A plan of the profile.
pub fn plan(random: &mut Random, profile: &str) -> Plan {
    match profile {
        "limits" => limits::limits(random),
        "explode" => explode::explode(random),
        "deep" if random.chance(70) => deep::deep(random),
        _ => sized(random, &sizes(profile)),
    }
}

/// The sizes of a profile whose plans have no exact ones.
pub fn sizes(profile: &str) -> Sizes {
    match profile {
        "types" => Sizes {
            syms: (3, 20),
            types: (2, 25),
            variants: (0, 60),
            generated: (0, 1),
            fields: 12,
            ..SMALL
        },
        "terms" => Sizes {
            terms: (4, 40),
            types: (1, 8),
            generated: (1, 6),
            fields: 10,
            rows: (0, 6),
            ..SMALL
        },
        "expr" => Sizes {
            terms: (2, 8),
            types: (2, 7),
            generated: (1, 2),
            bindings: (10, 60),
            wild: 80,
            rows: (3, 20),
            expression: 700,
            ..SMALL
        },
        "blocks" => Sizes {
            terms: (3, 8),
            types: (2, 7),
            generated: (1, 3),
            rows: (10, 70),
            level: 24,
            wild: 20,
            ..SMALL
        },
        "iterators" => Sizes {
            terms: (3, 9),
            types: (1, 6),
            generated: (1, 3),
            rows: (5, 40),
            multi: 85,
            wild: 35,
            ..SMALL
        },
        "split" => Sizes {
            terms: (2, 6),
            generated: (1, 4),
            rows: (8, 50),
            multi: 95,
            split: 90,
            ..SMALL
        },
        "literals" => Sizes {
            terms: (1, 3),
            generated: (1, 2),
            rows: (6, 30),
            bindings: (5, 30),
            wild: 80,
            integers: 60,
            ..SMALL
        },
        "texts" => Sizes {
            files: (0, 8),
            syms: (3, 12),
            terms: (1, 5),
            generated: (1, 2),
            style: Style { odd: 85, long: 3 },
            ..SMALL
        },
        "deep" => Sizes {
            terms: (2, 5),
            types: (1, 5),
            generated: (1, 1),
            rows: (30, 90),
            level: 63,
            ..SMALL
        },
        "large" => Sizes {
            files: (0, 20),
            syms: (40, 300),
            positions: (20, 200),
            types: (10, 60),
            variants: (10, 150),
            terms: (10, 100),
            generated: (1, 5),
            fields: 32,
            style: Style { odd: 8, long: 1 },
            rows: (10, 70),
            bindings: (10, 150),
            ..SMALL
        },
        _ => Sizes { bare: 2, ..SMALL },
    }
}

/// Makes a generated term.
type Generate = fn(&mut Random, &Plan, &Sizes, usize) -> Generated;

/// A plan of these sizes, with fewer generated terms if it would be too long.
pub fn sized(random: &mut Random, sizes: &Sizes) -> Plan {
    sized_with(random, sizes, blocks::generated)
}

pub fn sized_with(random: &mut Random, sizes: &Sizes, generate: Generate) -> Plan {
    loop {
        let mut plan = environment::environment(random, sizes);
        let count = random.range(sizes.generated.0, sizes.generated.1);
        add_generated(random, sizes, &mut plan, count, generate);
        while plan.bytes().len() > MOST_BYTES && plan.generated.pop().is_some() {}
        if plan.bytes().len() <= MOST_BYTES {
            return plan;
        }
    }
}

/// Terms with a constructor are generated, now and then one of them twice.
fn add_generated(
    random: &mut Random,
    sizes: &Sizes,
    plan: &mut Plan,
    count: usize,
    generate: Generate,
) {
    if plan.terms.is_empty() || count == 0 {
        return;
    }
    let first = random.below(plan.terms.len());
    if plan.terms[first].ctor == Function::Absent {
        plan.terms[first].ctor = Function::Internal;
    }
    let able: Vec<usize> = (0..plan.terms.len())
        .filter(|&term| plan.terms[term].ctor != Function::Absent)
        .collect();
    let mut last = first;
    for _ in 0..count {
        let term = if random.chance(25) {
            last
        } else {
            *random.pick(&able)
        };
        let generated = generate(random, plan, sizes, term);
        plan.generated.push(generated);
        last = term;
    }
}
