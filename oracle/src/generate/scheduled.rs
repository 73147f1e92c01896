//! Plans without a schedule fault by the way they are built: what the steps do comes first, and a
//! scheduler then fills their lists from the top, as `serialize` does, so that calls of iterator
//! kind are listed before they are used and loops go over listed iterators.

use crate::bindings::{Bindings, sources};
use crate::blocks::Blocks;
use crate::environment::Sizes;
use crate::random::Random;
use crate::rows::{Arm, Binding, Block, ControlFlow, Generated, Plan, Step};
use crate::scope::{MOST_IN_LIST, Scope, for_each_block, named};
use crate::valid;

/// The profiles of `valid` whose sizes are used, each with its share.
const PROFILES: &[(&str, usize)] = &[
    ("small", 20),
    ("terms", 10),
    ("blocks", 20),
    ("iterators", 25),
    ("split", 10),
    ("literals", 3),
    ("texts", 5),
    ("deep", 4),
    ("large", 3),
];

pub fn plan(random: &mut Random) -> Plan {
    let shares: Vec<usize> = PROFILES.iter().map(|&(_, share)| share).collect();
    let sizes = valid::sizes(PROFILES[random.weighted(&shares)].0);
    let sizes = Sizes {
        terms: (sizes.terms.0.max(2), sizes.terms.1.max(4)),
        generated: (sizes.generated.0.max(1), sizes.generated.1.max(1)),
        multi: sizes.multi.max(50),
        rows: (sizes.rows.0.max(3), sizes.rows.1.max(8)),
        bare: 0,
        ..sizes
    };
    valid::sized_with(random, &sizes, generated)
}

fn generated(random: &mut Random, plan: &Plan, sizes: &Sizes, term: usize) -> Generated {
    let rows = random.range(sizes.rows.0, sizes.rows.1);
    let bindings = Bindings::new(random, plan, sizes, &plan.terms[term]);
    let mut blocks = Blocks { bindings, rows };
    let mut block = blocks.scheduled_root();
    add_wild_steps(&mut blocks, &mut block);
    for_each_block(&mut block, 0, &mut |block, _| {
        repeat_steps(blocks.bindings.random, block);
    });
    let bindings = blocks.bindings.rows;
    let order = match random.below(4) {
        0 => Order::Least,
        1 => Order::Random(random.range(10, 90)),
        _ => Order::Crate,
    };
    let mut scheduler = Scheduler {
        random,
        scope: Scope::new(plan, &bindings),
        order,
    };
    scheduler.block(&mut block);
    Generated {
        term,
        bindings,
        block,
    }
}

/// Steps over any bindings, at any place: they use calls where the other steps don't.
fn add_wild_steps(blocks: &mut Blocks, block: &mut Block) {
    for _ in 0..blocks.bindings.random.below(8) {
        blocks.bindings.add_wild();
    }
    if blocks.bindings.rows.is_empty() {
        return;
    }
    for _ in 0..blocks.bindings.random.below(3) {
        let mut count = 0;
        for_each_block(block, 0, &mut |_, _| count += 1);
        let at = blocks.bindings.random.below(count);
        let mut number = 0;
        for_each_block(block, 0, &mut |block, level| {
            if number == at {
                insert_wild_steps(blocks, block, level);
            }
            number += 1;
        });
    }
}

fn insert_wild_steps(blocks: &mut Blocks, block: &mut Block, level: usize) {
    if level + 2 > blocks.bindings.sizes.level {
        return;
    }
    blocks.rows = blocks.bindings.random.range(1, 6);
    let mut steps = blocks.wild(level);
    let is_return = |step: &Step| matches!(step.check, ControlFlow::Return { .. });
    let mut last = block.len();
    // Without iterator kind only the last step of a block may be a return.
    if !blocks.bindings.term.multi {
        steps.retain(|step| !is_return(step));
        last -= block.last().is_some_and(is_return) as usize;
    }
    let place = blocks.bindings.random.range(0, last);
    block.splice(place..place, steps);
}

/// Now and then a step again, without what is below it: it uses what the first one lists.
fn repeat_steps(random: &mut Random, block: &mut Block) {
    for at in (0..block.len()).rev() {
        let mut step = block[at].clone();
        let bodies: Vec<&mut Block> = match &mut step.check {
            ControlFlow::Match { arms, .. } => arms.iter_mut().map(|arm| &mut arm.body).collect(),
            ControlFlow::Equal { body, .. } | ControlFlow::Loop { body, .. } => vec![body],
            ControlFlow::Return { .. } => continue,
        };
        bodies.into_iter().for_each(Vec::clear);
        if random.chance(12) {
            block.insert(at + 1, step);
        }
    }
}

/// Which bindings a step lists beside those that it must.
#[derive(Clone, Copy)]
enum Order {
    Least,
    /// As `use_expr` of the crate's scheduler.
    Crate,
    Random(usize),
}

struct Scheduler<'a> {
    random: &'a mut Random,
    scope: Scope<'a>,
    order: Order,
}

impl Scheduler<'_> {
    fn block(&mut self, block: &mut Block) {
        block.retain_mut(|step| self.step(step));
    }

    /// A body in which `bound` is bound too.
    fn body(&mut self, bound: impl IntoIterator<Item = usize>, body: &mut Block) {
        let outer = self.scope.bound.clone();
        self.scope.bound.extend(bound);
        self.block(body);
        self.scope.bound = outer;
    }

    /// Fills in the step's list; false if no list is short enough.
    fn step(&mut self, step: &mut Step) -> bool {
        if let ControlFlow::Match { source, arms } = &mut step.check {
            self.bind_used(*source, arms);
        }
        let outer = self.scope.bound.clone();
        let Some(list) = self.list(&step.check) else {
            self.scope.bound = outer;
            return false;
        };
        step.bind_order = list;
        match &mut step.check {
            ControlFlow::Match { source, arms } => {
                self.separate(*source, arms, &mut step.bind_order);
                for arm in arms {
                    self.body(named(arm), &mut arm.body);
                }
            }
            ControlFlow::Equal { body, .. } => self.body([], body),
            ControlFlow::Loop { result, body } => self.body([*result], body),
            ControlFlow::Return { .. } => {}
        }
        true
    }

    /// Now and then an arm binds what its source consists of.
    fn bind_used(&mut self, source: usize, arms: &mut [Arm]) {
        let used = self.scope.written(source);
        let at = self.random.below(arms.len());
        let bindings = &mut arms[at].bindings;
        if !used.is_empty() && !bindings.is_empty() && self.random.chance(25) {
            let place = self.random.below(bindings.len());
            bindings[place] = Some(*self.random.pick(&used));
        }
    }

    fn list(&mut self, check: &ControlFlow) -> Option<Vec<usize>> {
        for order in [self.order, Order::Least] {
            let outer = self.scope.bound.clone();
            let list = self.list_by(check, order);
            if list.len() <= MOST_IN_LIST {
                return Some(list);
            }
            self.scope.bound = outer;
        }
        None
    }

    fn list_by(&mut self, check: &ControlFlow, order: Order) -> Vec<usize> {
        let mut list = Vec::new();
        match *check {
            ControlFlow::Match { source, .. } => self.use_expr(source, order, &mut list),
            ControlFlow::Equal { a, b, .. } => {
                self.use_expr(a, order, &mut list);
                self.use_expr(b, order, &mut list);
            }
            ControlFlow::Loop { result, .. } => {
                let source = self.scope.loop_source(result);
                self.use_expr(source, order, &mut list);
                if !self.scope.bound.contains(&source) {
                    self.bind(source, &mut list);
                }
            }
            ControlFlow::Return { result, .. } => self.use_expr(result, order, &mut list),
        }
        // Now and then a binding that the step doesn't need, or that is bound already.
        if self.random.chance(8) {
            let binding = self.random.below(self.scope.bindings.len());
            self.use_expr(binding, order, &mut list);
            self.bind(binding, &mut list);
        }
        list
    }

    fn bind(&mut self, binding: usize, list: &mut Vec<usize>) {
        self.scope.bound.insert(binding);
        list.push(binding);
    }

    /// Lists what an expression consists of, sources first.
    fn use_expr(&mut self, binding: usize, order: Order, list: &mut Vec<usize>) {
        for part in self.scope.written(binding) {
            if self.scope.is_iterator_call(part) || self.is_listed(part, order) {
                self.bind(part, list);
            }
        }
    }

    fn is_listed(&mut self, binding: usize, order: Order) -> bool {
        match order {
            Order::Least => false,
            Order::Random(percent) => self.random.chance(percent),
            Order::Crate => match &self.scope.bindings[binding] {
                Binding::ConstInt { .. }
                | Binding::ConstPrim { .. }
                | Binding::Argument { .. }
                | Binding::MatchTuple { .. } => false,
                made @ (Binding::MakeVariant { .. } | Binding::MakeStruct { .. }) => {
                    !sources(made).is_empty()
                }
                _ => true,
            },
        }
    }

    /// Where the source of a one-arm match names what only its own pattern binds, the list binds it
    /// first, or the pattern doesn't.
    fn separate(&mut self, source: usize, arms: &mut [Arm], list: &mut Vec<usize>) {
        // A binding that the pattern gives up can uncover another one below it.
        while let Some(own) = self.scope.own_use(source, arms) {
            if list.len() < MOST_IN_LIST && self.random.chance(50) {
                self.bind(own, list);
            } else {
                forget(&mut arms[0], own);
            }
        }
    }
}

/// Puts `_` in the place of a binding.
pub fn forget(arm: &mut Arm, binding: usize) {
    for place in &mut arm.bindings {
        if *place == Some(binding) {
            *place = None;
        }
    }
}
