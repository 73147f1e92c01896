//! Plans of `valid` whose schedules are repaired until nothing of them needs it: what is missing
//! is listed, what is in the way is taken out, or the row is dropped.

use crate::random::Random;
use crate::rows::{Arm, Binding, Block, Constraint, ControlFlow, Generated, Plan, Step, row_count};
use crate::scheduled::forget;
use crate::scope::{MOST_IN_LIST, Scope, named};
use crate::valid::{self, MOST_BYTES};

const MOST_ROWS: usize = 2048;

/// The profiles of `valid` that are repaired, each with its share.
const PROFILES: &[(&str, usize)] = &[
    ("small", 22),
    ("terms", 4),
    ("expr", 20),
    ("blocks", 14),
    ("iterators", 20),
    ("split", 10),
    ("literals", 2),
    ("deep", 3),
    ("large", 2),
    ("limits", 2),
    ("explode", 1),
];

pub fn plan(random: &mut Random) -> Plan {
    let shares: Vec<usize> = PROFILES.iter().map(|&(_, share)| share).collect();
    let profile = PROFILES[random.weighted(&shares)].0;
    let mut plan = valid::plan(random, profile);
    for mut generated in std::mem::take(&mut plan.generated) {
        repair(random, &plan, &mut generated);
        plan.generated.push(generated);
    }
    while plan.bytes().len() > MOST_BYTES && plan.generated.pop().is_some() {}
    plan
}

fn repair(random: &mut Random, plan: &Plan, generated: &mut Generated) {
    let drop = *random.pick(&[0, 10, 30]);
    loop {
        let mut repair = Repair {
            random,
            scope: Scope::new(plan, &generated.bindings),
            drop,
            rows: row_count(&generated.block),
            is_changed: false,
        };
        repair.block(&mut generated.block);
        if !repair.is_changed {
            return;
        }
    }
}

struct Repair<'a> {
    random: &'a mut Random,
    scope: Scope<'a>,
    /// Percent of the rows in need of repair that are dropped.
    drop: usize,
    rows: usize,
    is_changed: bool,
}

impl Repair<'_> {
    fn block(&mut self, block: &mut Block) {
        block.retain_mut(|step| {
            let outer = self.scope.bound.clone();
            let is_kept = self.step(step).is_some();
            if !is_kept {
                self.is_changed = true;
                self.scope.bound = outer;
            }
            is_kept
        });
    }

    fn body(&mut self, bound: impl IntoIterator<Item = usize>, body: &mut Block) {
        let outer = self.scope.bound.clone();
        self.scope.bound.extend(bound);
        self.block(body);
        self.scope.bound = outer;
    }

    /// None if the row is to be dropped.
    fn step(&mut self, step: &mut Step) -> Option<()> {
        step.bind_order = self.list(&step.bind_order)?;
        let list = &mut step.bind_order;
        match &mut step.check {
            ControlFlow::Match { source, arms } => {
                self.arms(*source, arms, list)?;
                let calls = self.scope.source_calls(*source, arms);
                self.head(source, calls, list)?;
                arms.iter_mut()
                    .for_each(|arm| self.body(named(arm), &mut arm.body));
            }
            ControlFlow::Equal { a, b, body } => {
                self.head(a, self.scope.calls(*a), list)?;
                self.head(b, self.scope.calls(*b), list)?;
                self.body([], body);
            }
            ControlFlow::Loop { result, body } => {
                self.loop_source(result, list)?;
                self.body([*result], body);
            }
            ControlFlow::Return { result, .. } => {
                self.head(result, self.scope.calls(*result), list)?;
            }
        }
        Some(())
    }

    /// Notes that something is repaired; None if the row is dropped instead.
    fn change(&mut self) -> Option<()> {
        self.is_changed = true;
        (!self.random.chance(self.drop)).then_some(())
    }

    /// Binds `binding` at the end of the list; None if there is no room.
    fn bind(&mut self, binding: usize, list: &mut Vec<usize>) -> Option<()> {
        self.scope.bound.insert(binding);
        list.push(binding);
        (list.len() <= MOST_IN_LIST).then_some(())
    }

    /// The list with the calls inside each member before it, or without that member.
    fn list(&mut self, members: &[usize]) -> Option<Vec<usize>> {
        let mut list = Vec::new();
        for &member in members {
            let mut calls = self.scope.calls(member);
            calls.retain(|&call| call != member);
            if !calls.is_empty() {
                self.change()?;
                if self.random.chance(25) {
                    continue;
                }
            }
            for call in calls {
                self.bind(call, &mut list)?;
            }
            self.bind(member, &mut list)?;
        }
        Some(list)
    }

    /// An expression beside the list: its calls are listed, or it becomes another one.
    fn head(&mut self, head: &mut usize, calls: Vec<usize>, list: &mut Vec<usize>) -> Option<()> {
        if calls.is_empty() {
            return Some(());
        }
        self.change()?;
        let other = self.random.below(self.scope.bindings.len());
        if self.random.chance(25) && self.scope.calls(other).is_empty() {
            *head = other;
            return Some(());
        }
        calls.into_iter().try_for_each(|call| self.bind(call, list))
    }

    /// The source of a loop is listed, or the loop goes over another one that is bound.
    fn loop_source(&mut self, result: &mut usize, list: &mut Vec<usize>) -> Option<()> {
        let source = self.scope.loop_source(*result);
        if self.scope.bound.contains(&source) {
            return Some(());
        }
        self.change()?;
        let is_bound = |binding: &Binding| matches!(binding, Binding::Iterator { source } if self.scope.bound.contains(source));
        let count = self.scope.bindings.len();
        let others: Vec<usize> = (0..count)
            .filter(|&other| is_bound(&self.scope.bindings[other]))
            .collect();
        if !others.is_empty() && self.random.chance(30) {
            *result = *self.random.pick(&others);
            return Some(());
        }
        for call in self.scope.calls(source) {
            self.bind(call, list)?;
        }
        if !self.scope.bound.contains(&source) {
            self.bind(source, list)?;
        }
        Some(())
    }

    /// The one arm whose own bindings the source names: a list before it binds them, the pattern
    /// gives them up, or there is a second arm.
    fn arms(&mut self, source: usize, arms: &mut Vec<Arm>, list: &mut Vec<usize>) -> Option<()> {
        while let Some(own) = self.scope.own_use(source, arms) {
            self.change()?;
            match self.random.below(3) {
                0 => {
                    for call in self.scope.calls(own) {
                        self.bind(call, list)?;
                    }
                    if !self.scope.bound.contains(&own) {
                        self.bind(own, list)?;
                    }
                }
                1 if self.rows < MOST_ROWS => {
                    self.rows += 1;
                    arms.push(self.second_arm(&arms[0]));
                }
                _ => forget(&mut arms[0], own),
            }
        }
        Some(())
    }

    fn second_arm(&mut self, first: &Arm) -> Arm {
        let val = self.random.chance(50);
        let is_equal = self.random.chance(50);
        Arm {
            constraint: if is_equal {
                first.constraint
            } else {
                Constraint::ConstBool { val }
            },
            bindings: if is_equal {
                first.bindings.clone()
            } else {
                Vec::new()
            },
            body: Vec::new(),
        }
    }
}
