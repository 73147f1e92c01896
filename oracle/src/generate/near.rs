//! Near misses: plans without a schedule fault and one change that may make one.

use crate::random::Random;
use crate::rows::{Arm, Binding, Block, Constraint, ControlFlow, Generated, Plan, Step, row_count};
use crate::scope::{Scope, for_each_block, named};
use crate::valid::MOST_BYTES;
use crate::{repaired, scheduled};

// Only the report reads the change.
#[cfg_attr(not(coverage), allow(dead_code))]
pub struct Near {
    pub plan: Plan,
    pub change: &'static str,
}

/// Changes a place that is drawn from those where it applies; false where there is none.
type Apply = fn(&mut Random, &Plan, &mut Generated) -> bool;

pub const CHANGES: &[(&str, Apply)] = &[
    ("a member taken out of its list", take_out),
    ("a member moved to the end of its list", move_later),
    ("two members of a list swapped", swap_members),
    ("the list of a loop emptied", empty_loop_list),
    ("a return of another iterator call", return_call),
    ("a match or an equal of another iterator call", head_call),
    ("a loop over another source", loop_over_another),
    ("an arm that binds what its source uses", bind_used),
    (
        "a second arm added, and often what the source uses bound",
        add_arm,
    ),
    ("an arm dropped", drop_arm),
    ("a step moved out of its block", move_out),
    ("two steps swapped", swap_steps),
];

pub fn near(random: &mut Random) -> Near {
    let (change, apply) = *random.pick(CHANGES);
    loop {
        let mut plan = if random.chance(60) {
            scheduled::plan(random)
        } else {
            repaired::plan(random)
        };
        if plan.generated.is_empty() {
            continue;
        }
        let at = random.below(plan.generated.len());
        let mut generated = plan.generated[at].clone();
        if apply(random, &plan, &mut generated) && row_count(&generated.block) <= 2048 {
            plan.generated[at] = generated;
            if plan.bytes().len() <= MOST_BYTES {
                return Near { plan, change };
            }
        }
    }
}

/// Whether a change may happen at a step, and whether it is likely to make a fault there.
type Wanted<'a> = &'a dyn Fn(&Step) -> bool;

/// Changes one of the steps for which `wanted` holds: mostly one for which `likely` does, too.
fn change_step(
    random: &mut Random,
    block: &mut Block,
    wanted: Wanted,
    likely: Wanted,
    change: &mut dyn FnMut(&mut Random, &mut Step),
) -> bool {
    let both = |step: &Step| wanted(step) && likely(step);
    if random.chance(70) && change_one(random, block, &both, change) {
        return true;
    }
    change_one(random, block, wanted, change)
}

fn change_one(
    random: &mut Random,
    block: &mut Block,
    wanted: Wanted,
    change: &mut dyn FnMut(&mut Random, &mut Step),
) -> bool {
    let mut count = 0;
    for_each_block(block, 0, &mut |block, _| {
        count += block.iter().filter(|step| wanted(step)).count();
    });
    if count == 0 {
        return false;
    }
    let at = random.below(count);
    let mut number = 0;
    for_each_block(block, 0, &mut |block, _| {
        for step in block.iter_mut() {
            if wanted(step) {
                if number == at {
                    change(random, step);
                }
                number += 1;
            }
        }
    });
    true
}

fn any(_: &Step) -> bool {
    true
}

fn take_out(random: &mut Random, plan: &Plan, generated: &mut Generated) -> bool {
    let calls = iterator_calls(plan, generated);
    let wanted = |step: &Step| !step.bind_order.is_empty();
    let likely = |step: &Step| step.bind_order.iter().any(|member| calls.contains(member));
    let block = &mut generated.block;
    change_step(random, block, &wanted, &likely, &mut |random, step| {
        let at = random.below(step.bind_order.len());
        step.bind_order.remove(at);
    })
}

/// Two places of a list, the first of which holds an iterator call inside what the second holds.
fn part_and_whole(scope: &Scope, list: &[usize]) -> Option<(usize, usize)> {
    let pairs = (0..list.len()).flat_map(|later| (0..later).map(move |earlier| (earlier, later)));
    let is_part = |&(earlier, later): &(usize, usize)| {
        list[earlier] != list[later] && scope.calls(list[later]).contains(&list[earlier])
    };
    pairs.into_iter().find(is_part)
}

fn move_later(random: &mut Random, plan: &Plan, generated: &mut Generated) -> bool {
    let scope = Scope::new(plan, &generated.bindings);
    let wanted = |step: &Step| step.bind_order.len() > 1;
    let likely = |step: &Step| part_and_whole(&scope, &step.bind_order).is_some();
    let block = &mut generated.block;
    change_step(random, block, &wanted, &likely, &mut |random, step| {
        let at = match part_and_whole(&scope, &step.bind_order) {
            Some((part, _)) if random.chance(80) => part,
            _ => random.below(step.bind_order.len() - 1),
        };
        let member = step.bind_order.remove(at);
        step.bind_order.push(member);
    })
}

fn swap_members(random: &mut Random, plan: &Plan, generated: &mut Generated) -> bool {
    let scope = Scope::new(plan, &generated.bindings);
    let wanted = |step: &Step| step.bind_order.len() > 1;
    let likely = |step: &Step| part_and_whole(&scope, &step.bind_order).is_some();
    let block = &mut generated.block;
    change_step(random, block, &wanted, &likely, &mut |random, step| {
        let first = random.below(step.bind_order.len() - 1);
        let (a, b) = part_and_whole(&scope, &step.bind_order).unwrap_or((first, first + 1));
        step.bind_order.swap(a, b);
    })
}

fn empty_loop_list(random: &mut Random, _: &Plan, generated: &mut Generated) -> bool {
    let wanted =
        |step: &Step| matches!(step.check, ControlFlow::Loop { .. }) && !step.bind_order.is_empty();
    change_step(
        random,
        &mut generated.block,
        &wanted,
        &any,
        &mut |_, step| {
            step.bind_order.clear();
        },
    )
}

fn iterator_calls(plan: &Plan, generated: &Generated) -> Vec<usize> {
    let scope = Scope::new(plan, &generated.bindings);
    (0..generated.bindings.len())
        .filter(|&binding| scope.is_iterator_call(binding))
        .collect()
}

fn return_call(random: &mut Random, plan: &Plan, generated: &mut Generated) -> bool {
    let calls = iterator_calls(plan, generated);
    let wanted = |step: &Step| matches!(step.check, ControlFlow::Return { .. });
    let block = &mut generated.block;
    !calls.is_empty()
        && change_step(random, block, &wanted, &any, &mut |random, step| {
            if let ControlFlow::Return { result, .. } = &mut step.check {
                *result = *random.pick(&calls);
            }
        })
}

fn head_call(random: &mut Random, plan: &Plan, generated: &mut Generated) -> bool {
    let calls = iterator_calls(plan, generated);
    let wanted = |step: &Step| {
        matches!(
            step.check,
            ControlFlow::Match { .. } | ControlFlow::Equal { .. }
        )
    };
    let block = &mut generated.block;
    !calls.is_empty()
        && change_step(random, block, &wanted, &any, &mut |random, step| {
            let call = *random.pick(&calls);
            match &mut step.check {
                ControlFlow::Match { source, .. } => *source = call,
                ControlFlow::Equal { a, .. } if random.chance(50) => *a = call,
                ControlFlow::Equal { b, .. } => *b = call,
                _ => unreachable!("a step that isn't wanted"),
            }
        })
}

fn loop_over_another(random: &mut Random, _: &Plan, generated: &mut Generated) -> bool {
    let is_iterator = |&at: &usize| matches!(generated.bindings[at], Binding::Iterator { .. });
    let results: Vec<usize> = (0..generated.bindings.len()).filter(is_iterator).collect();
    let wanted = |step: &Step| matches!(step.check, ControlFlow::Loop { .. });
    let block = &mut generated.block;
    results.len() > 1
        && change_step(random, block, &wanted, &any, &mut |random, step| {
            if let ControlFlow::Loop { result, .. } = &mut step.check {
                *result = *random.pick(&results);
            }
        })
}

/// A match whose only arm has a place for a binding.
fn has_one_pattern(step: &Step) -> bool {
    match &step.check {
        ControlFlow::Match { arms, .. } => arms.len() == 1 && !arms[0].bindings.is_empty(),
        _ => false,
    }
}

/// Puts what the source can come to into the first arm.
fn put_used(random: &mut Random, scope: &Scope, source: usize, arms: &mut [Arm]) {
    let used = *random.pick(&scope.written(source));
    let place = random.below(arms[0].bindings.len());
    arms[0].bindings[place] = Some(used);
}

fn bind_used(random: &mut Random, plan: &Plan, generated: &mut Generated) -> bool {
    let scope = Scope::new(plan, &generated.bindings);
    let block = &mut generated.block;
    change_step(
        random,
        block,
        &has_one_pattern,
        &any,
        &mut |random, step| {
            if let ControlFlow::Match { source, arms } = &mut step.check {
                put_used(random, &scope, *source, arms);
            }
        },
    )
}

/// The source of a match of two arms may use what an arm binds, so that it often does.
fn add_arm(random: &mut Random, plan: &Plan, generated: &mut Generated) -> bool {
    let scope = Scope::new(plan, &generated.bindings);
    let block = &mut generated.block;
    change_step(
        random,
        block,
        &has_one_pattern,
        &any,
        &mut |random, step| {
            let ControlFlow::Match { source, arms } = &mut step.check else {
                return;
            };
            if random.chance(60) {
                put_used(random, &scope, *source, arms);
            }
            let mut arm = Arm {
                body: Vec::new(),
                ..arms[0].clone()
            };
            if random.chance(50) {
                let val = random.chance(50);
                arm.constraint = Constraint::ConstBool { val };
                arm.bindings.clear();
            }
            arms.push(arm);
        },
    )
}

fn drop_arm(random: &mut Random, plan: &Plan, generated: &mut Generated) -> bool {
    let scope = Scope::new(plan, &generated.bindings);
    let wanted = |step: &Step| match &step.check {
        ControlFlow::Match { arms, .. } => arms.len() > 1,
        _ => false,
    };
    let likely = |step: &Step| match &step.check {
        ControlFlow::Match { source, arms } => {
            let used = scope.after_list(step).written(*source);
            let is_used = |arm: &Arm| named(arm).iter().any(|binding| used.contains(binding));
            arms.len() == 2 && arms.iter().any(is_used)
        }
        _ => false,
    };
    let block = &mut generated.block;
    change_step(random, block, &wanted, &likely, &mut |random, step| {
        if let ControlFlow::Match { arms, .. } = &mut step.check {
            let at = random.below(arms.len());
            arms.remove(at);
        }
    })
}

/// The blocks right below a step.
fn bodies(step: &mut Step) -> Vec<&mut Block> {
    match &mut step.check {
        ControlFlow::Match { arms, .. } => arms.iter_mut().map(|arm| &mut arm.body).collect(),
        ControlFlow::Equal { body, .. } | ControlFlow::Loop { body, .. } => vec![body],
        ControlFlow::Return { .. } => Vec::new(),
    }
}

/// One of the places, mostly a likely one.
fn place<T: Copy>(random: &mut Random, places: &[(T, bool)]) -> Option<T> {
    let likely: Vec<T> = places.iter().filter(|place| place.1).map(|p| p.0).collect();
    if !likely.is_empty() && random.chance(70) {
        return Some(*random.pick(&likely));
    }
    (!places.is_empty()).then(|| random.pick(places).0)
}

/// A step of a body comes to stand after the step that holds the body.
fn move_out(random: &mut Random, plan: &Plan, generated: &mut Generated) -> bool {
    let multi = plan.terms[generated.term].multi;
    let scope = Scope::new(plan, &generated.bindings);
    let mut places = Vec::new();
    let mut number = 0;
    for_each_block(&mut generated.block, 0, &mut |block, _| {
        let last = block.len().saturating_sub(1);
        for (at, step) in block.iter_mut().enumerate() {
            for (body_at, body) in bodies(step).into_iter().enumerate() {
                for (from, inner) in body.iter().enumerate() {
                    // Without iterator kind a return must be the last step.
                    if multi || !is_return(inner) || at == last {
                        let is_likely = listed_by(&body[..from], &scope.needs(inner));
                        places.push(((number, at, body_at, from), is_likely));
                    }
                }
            }
        }
        number += 1;
    });
    let Some((block_at, at, body_at, from)) = place(random, &places) else {
        return false;
    };
    let mut number = 0;
    for_each_block(&mut generated.block, 0, &mut |block, _| {
        if number == block_at {
            let step = bodies(&mut block[at])[body_at].remove(from);
            block.insert(at + 1, step);
        }
        number += 1;
    });
    true
}

/// Whether a list of the steps holds one of the bindings.
fn listed_by(steps: &[Step], bindings: &[usize]) -> bool {
    let mut members = steps.iter().flat_map(|step| &step.bind_order);
    members.any(|member| bindings.contains(member))
}

fn is_return(step: &Step) -> bool {
    matches!(step.check, ControlFlow::Return { .. })
}

/// Two steps of a block that follow each other, none of them a return.
fn swap_steps(random: &mut Random, plan: &Plan, generated: &mut Generated) -> bool {
    let scope = Scope::new(plan, &generated.bindings);
    let mut places = Vec::new();
    let mut number = 0;
    for_each_block(&mut generated.block, 0, &mut |block, _| {
        for (at, pair) in block.windows(2).enumerate() {
            if !pair.iter().any(is_return) {
                let is_likely = listed_by(&pair[..1], &scope.needs(&pair[1]));
                places.push(((number, at), is_likely));
            }
        }
        number += 1;
    });
    let Some((block_at, at)) = place(random, &places) else {
        return false;
    };
    let mut number = 0;
    for_each_block(&mut generated.block, 0, &mut |block, _| {
        if number == block_at {
            block.swap(at, at + 1);
        }
        number += 1;
    });
    true
}
