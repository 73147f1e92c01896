//! What is bound at a place of a block, and what an expression written there consists of. This is
//! the generator's own account; it shares nothing with the oracle's schedule check.

use crate::bindings::sources;
use crate::rows::{Arm, Binding, Block, ControlFlow, Plan, Step};
use std::collections::BTreeSet;

pub const MOST_IN_LIST: usize = 32;

pub struct Scope<'a> {
    pub plan: &'a Plan,
    pub bindings: &'a [Binding],
    pub bound: BTreeSet<usize>,
}

impl<'a> Scope<'a> {
    /// The place before the first step of a generated term.
    pub fn new(plan: &'a Plan, bindings: &'a [Binding]) -> Scope<'a> {
        Scope {
            plan,
            bindings,
            bound: BTreeSet::new(),
        }
    }

    pub fn is_iterator_call(&self, binding: usize) -> bool {
        match self.bindings[binding] {
            Binding::Extractor { term, .. } | Binding::Constructor { term, .. } => {
                self.plan.terms[term].multi
            }
            _ => false,
        }
    }

    /// The unbound bindings that are written for `binding`, each once and after its sources.
    pub fn written(&self, binding: usize) -> Vec<usize> {
        self.parts(binding, &BTreeSet::new()).written
    }

    /// The iterator calls among them.
    pub fn calls(&self, binding: usize) -> Vec<usize> {
        let mut calls = self.written(binding);
        calls.retain(|&call| self.is_iterator_call(call));
        calls
    }

    /// What is written and named for `binding` where `also` is bound too.
    fn parts(&self, binding: usize, also: &BTreeSet<usize>) -> Parts {
        let mut parts = Parts::default();
        self.add_parts(binding, also, &mut parts);
        parts
    }

    fn add_parts(&self, binding: usize, also: &BTreeSet<usize>, parts: &mut Parts) {
        if self.bound.contains(&binding) || also.contains(&binding) {
            parts.named.insert(binding);
        } else if parts.seen.insert(binding) {
            for source in sources(&self.bindings[binding]) {
                self.add_parts(source, also, parts);
            }
            parts.written.push(binding);
        }
    }

    /// The iterator calls that the source of a match writes.
    pub fn source_calls(&self, source: usize, arms: &[Arm]) -> Vec<usize> {
        let mut calls = self.parts(source, &bound_before_source(arms)).written;
        calls.retain(|&call| self.is_iterator_call(call));
        calls
    }

    /// A binding of the one arm that the source names and that nothing bound before.
    pub fn own_use(&self, source: usize, arms: &[Arm]) -> Option<usize> {
        let mut own = bound_before_source(arms);
        own.retain(|binding| !self.bound.contains(binding));
        let named = self.parts(source, &own).named;
        own.intersection(&named).next().copied()
    }

    /// The place after the list of a step.
    pub fn after_list(&self, step: &Step) -> Scope<'a> {
        Scope {
            bound: &self.bound | &step.bind_order.iter().copied().collect(),
            ..*self
        }
    }

    /// What a step needs bound beside its own list: the iterator calls that it writes, and the
    /// source of a loop.
    pub fn needs(&self, step: &Step) -> Vec<usize> {
        let scope = self.after_list(step);
        match step.check {
            ControlFlow::Match { source, .. } => scope.calls(source),
            ControlFlow::Equal { a, b, .. } => [scope.calls(a), scope.calls(b)].concat(),
            ControlFlow::Loop { result, .. } => {
                let mut source = vec![scope.loop_source(result)];
                source.retain(|source| !scope.bound.contains(source));
                source
            }
            ControlFlow::Return { result, .. } => scope.calls(result),
        }
    }

    /// The source of a loop.
    pub fn loop_source(&self, result: usize) -> usize {
        match self.bindings[result] {
            Binding::Iterator { source } => source,
            _ => unreachable!("the result of a loop is an iter"),
        }
    }
}

#[derive(Default)]
struct Parts {
    written: Vec<usize>,
    named: BTreeSet<usize>,
    seen: BTreeSet<usize>,
}

/// Of a match with one pattern alone, the pattern is written before the source; a constant arm
/// names nothing.
fn bound_before_source(arms: &[Arm]) -> BTreeSet<usize> {
    match arms {
        [arm] => named(arm),
        _ => BTreeSet::new(),
    }
}

pub fn named(arm: &Arm) -> BTreeSet<usize> {
    arm.bindings.iter().flatten().copied().collect()
}

/// Calls `visit` with every block and its level: one that holds others comes before them.
pub fn for_each_block(block: &mut Block, level: usize, visit: &mut dyn FnMut(&mut Block, usize)) {
    visit(block, level);
    for step in block {
        match &mut step.check {
            ControlFlow::Match { arms, .. } => arms
                .iter_mut()
                .for_each(|arm| for_each_block(&mut arm.body, level + 2, visit)),
            ControlFlow::Equal { body, .. } | ControlFlow::Loop { body, .. } => {
                for_each_block(body, level + 1, visit);
            }
            ControlFlow::Return { .. } => {}
        }
    }
}
