//! Pairs of plans that differ only in split and threshold: off in one, on in the other.

use crate::bindings::Bindings;
use crate::blocks::{self, Blocks};
use crate::environment::{Sizes, environment, threshold};
use crate::random::Random;
use crate::rows::{
    Arm, Binding, Block, ControlFlow, Function, Generated, Plan, Step, block_weight,
};
use crate::texts::Style;
use crate::valid::{MOST_BYTES, SMALL};

const SIZES: Sizes = Sizes {
    terms: (1, 4),
    types: (1, 5),
    multi: 90,
    rows: (5, 45),
    bindings: (3, 12),
    wild: 50,
    expression: 150,
    style: Style { odd: 25, long: 0 },
    ..SMALL
};

pub struct Pair {
    pub off: Plan,
    pub on: Plan,
}

pub fn pair(random: &mut Random) -> Pair {
    let threshold_on = match random.below(12) {
        0 => None,
        1 => Some(*random.pick(&[255, 256, 257])),
        2 => Some(65535),
        3 | 4 => Some(0),
        5 | 6 => Some(1),
        7 => Some(2),
        _ => Some(random.range(3, 20)),
    };
    let mut on = around(random, threshold_on.unwrap_or(256));
    on.options.split = true;
    on.options.threshold = threshold_on;
    let mut off = on.clone();
    off.options.split = false;
    off.options.threshold = if random.chance(30) {
        threshold_on
    } else {
        threshold(random)
    };
    Pair { off, on }
}

/// A plan with iterator-kind terms, whose arms weigh around the threshold.
fn around(random: &mut Random, threshold: usize) -> Plan {
    loop {
        let odd = *random.pick(&[0, 20, 60]);
        let sizes = Sizes {
            style: Style { odd, long: 0 },
            ..SIZES
        };
        let mut plan = environment(random, &sizes);
        let Some(first) = plan.terms.first_mut() else {
            continue;
        };
        first.multi = true;
        if first.ctor == Function::Absent {
            first.ctor = Function::Internal;
        }
        add_generated(random, &sizes, &mut plan, threshold);
        let fits = |generated: &Generated| crate::rows::row_count(&generated.block) <= 2048;
        if plan.bytes().len() <= MOST_BYTES && plan.generated.iter().all(fits) {
            return plan;
        }
    }
}

fn add_generated(random: &mut Random, sizes: &Sizes, plan: &mut Plan, threshold: usize) {
    let able: Vec<usize> = (0..plan.terms.len())
        .filter(|&term| plan.terms[term].ctor != Function::Absent)
        .collect();
    let mut term = 0;
    for _ in 0..if threshold > 100 {
        1
    } else {
        random.range(1, 3)
    } {
        let generated = if random.chance(25) {
            blocks::generated(random, plan, sizes, term)
        } else {
            weighted(random, plan, sizes, term, threshold)
        };
        plan.generated.push(generated);
        // The same term again, or another one.
        if random.chance(60) {
            term = *random.pick(&able);
        }
    }
}

fn weighted(
    random: &mut Random,
    plan: &Plan,
    sizes: &Sizes,
    term: usize,
    threshold: usize,
) -> Generated {
    let mut bindings = Bindings::new(random, plan, sizes, &plan.terms[term]);
    for _ in 0..bindings.random.range(sizes.bindings.0, sizes.bindings.1) {
        bindings.add_wild();
    }
    let blocks = Blocks {
        bindings,
        rows: 2048,
    };
    let mut weighted = Weighted { blocks, threshold };
    let depth = match threshold {
        // Level 63 is the deepest; a match and its arms take two.
        0..=3 if weighted.random().chance(8) => weighted.random().range(20, 30),
        0..=20 => weighted.random().range(0, 6),
        _ => weighted.random().below(3),
    };
    let mut block = weighted.filler(2, 0);
    block.push(weighted.matched(depth, 0));
    Generated {
        term,
        bindings: weighted.blocks.bindings.rows,
        block,
    }
}

/// Builds blocks of wanted weights.
struct Weighted<'a> {
    blocks: Blocks<'a>,
    threshold: usize,
}

impl Weighted<'_> {
    fn random(&mut self) -> &mut Random {
        self.blocks.bindings.random
    }

    fn any(&mut self) -> usize {
        self.blocks.bindings.source()
    }

    fn is_iterator(&self) -> bool {
        self.blocks.bindings.term.multi
    }

    /// A weight one below, equal to or one above the threshold, or a small one.
    fn weight(&mut self) -> usize {
        let threshold = self.threshold.min(300);
        match self.random().below(6) {
            0 => threshold.saturating_sub(1),
            1 => threshold,
            2 | 3 => threshold + 1,
            4 => threshold + self.random().range(2, 5),
            _ => self.random().below(3),
        }
    }

    /// A match of one to four arms; one of them holds a further match, `depth` times.
    fn matched(&mut self, depth: usize, level: usize) -> Step {
        let count = if self.threshold > 100 {
            2
        } else {
            *self.random().pick(&[1, 2, 2, 2, 3, 4])
        };
        let holder = self.random().below(count);
        let mut arms = Vec::new();
        for at in 0..count {
            let light = self.threshold > 100 && at != holder;
            let weight = if light {
                self.random().below(4)
            } else {
                self.weight()
            };
            let inner = (at == holder && depth > 0).then(|| self.matched(depth - 1, level + 2));
            arms.push(self.arm(weight, inner, level + 1));
        }
        let bind_order = self.blocks.wild_order();
        Step {
            bind_order,
            check: ControlFlow::Match {
                source: self.any(),
                arms,
            },
        }
    }

    /// An arm whose body weighs `weight`, or more if the step `inner` in it does.
    fn arm(&mut self, weight: usize, inner: Option<Step>, level: usize) -> Arm {
        let constraint = self.blocks.wild_constraint();
        let bindings = (0..self.blocks.bindings.arm_length(constraint))
            .map(|_| {
                if self.random().chance(30) {
                    None
                } else {
                    Some(self.any())
                }
            })
            .collect();
        let mut body: Block = inner.into_iter().collect();
        let missing = weight.saturating_sub(block_weight(&body));
        let filler = self.filler(missing, level + 1);
        body.splice(0..0, filler);
        Arm {
            constraint,
            bindings,
            body,
        }
    }

    /// Steps that weigh `weight` together.
    fn filler(&mut self, weight: usize, level: usize) -> Block {
        let mut block = Vec::new();
        let mut left = weight;
        while left > 0 {
            let below = if level + 3 > 40 || self.random().chance(60) {
                0
            } else {
                self.random().below(left.min(9))
            };
            left -= 1 + below;
            let check = self.filling(below, level);
            let bind_order = if weight > 100 {
                Vec::new()
            } else {
                self.blocks.wild_order()
            };
            block.push(Step { bind_order, check });
        }
        block
    }

    /// A step with the weight `below` under it.
    fn filling(&mut self, below: usize, level: usize) -> ControlFlow {
        let iterators: Vec<usize> = (0..self.blocks.bindings.rows.len())
            .filter(|&b| matches!(self.blocks.bindings.rows[b], Binding::Iterator { .. }))
            .collect();
        // Long bodies are made of short lines.
        let long = self.threshold > 100;
        match self.random().below(if long { 12 } else { 6 }) {
            0 | 1 if below == 0 && self.is_iterator() => {
                let positions = self.blocks.bindings.plan.positions.len();
                ControlFlow::Return {
                    result: self.any(),
                    pos: self.random().below(positions),
                }
            }
            2 if self.is_iterator() && !iterators.is_empty() => {
                let result = *self.random().pick(&iterators);
                ControlFlow::Loop {
                    result,
                    body: self.filler(below, level + 1),
                }
            }
            3 | 4 => {
                let first = self.random().below(below + 1);
                let mut arms = vec![self.arm(first, None, level + 1)];
                if first < below || self.random().chance(50) {
                    arms.push(self.arm(below - first, None, level + 1));
                }
                ControlFlow::Match {
                    source: self.any(),
                    arms,
                }
            }
            _ => ControlFlow::Equal {
                a: self.any(),
                b: self.any(),
                body: self.filler(below, level + 1),
            },
        }
    }
}
