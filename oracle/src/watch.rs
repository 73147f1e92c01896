//! What the watched copy of codegen.rs reports while it writes the generated terms of a plan, and
//! the schedule faults that follow from it. `oracle/build` puts the calls of the functions below
//! into the copy; the bound set is always the crate's own.

use crate::sema::TermId;
use crate::serialize::{EvalStep, MatchArm};
use crate::stablemapset::StableSet;
use crate::trie_again::BindingId;
use std::cell::RefCell;
use std::collections::{BTreeSet, VecDeque};

/// A fault's place and letter.
#[derive(Clone, Copy, Debug, PartialEq, Eq, PartialOrd, Ord)]
pub struct Fault {
    /// Which of the generated terms, in plan order: a term may be generated twice.
    pub generated: usize,
    /// Its row in the term table.
    pub term: usize,
    /// The step's row in the block table.
    pub row: usize,
    pub letter: char,
}

/// A row of a block table that holds a step.
pub struct StepRow {
    pub row: usize,
    pub bind_order: Vec<BindingId>,
}

#[derive(Default)]
struct Watch {
    /// The step rows of the generated terms that aren't begun yet. Steps are written in the order
    /// of their rows.
    terms: VecDeque<VecDeque<StepRow>>,
    begun: usize,
    term: usize,
    /// Those of the term that is being written.
    steps: VecDeque<StepRow>,
    row: usize,
    /// The member of the step's list that is being written.
    member: Option<BindingId>,
    /// The bindings that only the pattern of a one-arm match has bound.
    own: Vec<BindingId>,
    /// Whether the source of that match is being written.
    is_source: bool,
    /// In plan order, each letter once a row.
    faults: BTreeSet<Fault>,
}

thread_local! {
    static WATCH: RefCell<Watch> = RefCell::default();
}

/// Sets the steps of the generated terms that are written from here on, on this thread.
pub fn begin(terms: VecDeque<VecDeque<StepRow>>) {
    WATCH.set(Watch {
        terms,
        ..Watch::default()
    });
}

/// The faults since `begin`, once all terms are written to the end.
pub fn end() -> BTreeSet<Fault> {
    let watch = WATCH.take();
    let is_done = watch.terms.is_empty() && watch.steps.is_empty();
    assert!(is_done, "a step that codegen.rs didn't write");
    watch.faults
}

impl Watch {
    fn fault(&mut self, letter: char) {
        self.faults.insert(Fault {
            generated: self.begun - 1,
            term: self.term,
            row: self.row,
            letter,
        });
    }

    /// (c) if the source of a one-arm match names what only its own pattern has bound.
    fn name(&mut self, binding: BindingId) {
        if self.is_source && self.own.contains(&binding) {
            self.fault('c');
        }
    }
}

pub fn begin_term(term: TermId) {
    WATCH.with_borrow_mut(|watch| {
        assert!(
            watch.steps.is_empty(),
            "a step that codegen.rs didn't write"
        );
        watch.steps = watch.terms.pop_front().expect("steps of each term");
        watch.begun += 1;
        watch.term = term.index();
    });
}

pub fn begin_step(step: &EvalStep) {
    WATCH.with_borrow_mut(|watch| {
        let StepRow { row, bind_order } = watch.steps.pop_front().expect("a row of each step");
        assert!(bind_order == step.bind_order, "a step out of its row");
        watch.row = row;
    });
}

pub fn begin_member(binding: BindingId) {
    WATCH.with_borrow_mut(|watch| watch.member = Some(binding));
}

pub fn end_member() {
    WATCH.with_borrow_mut(|watch| watch.member = None);
}

/// (a) if the source of the loop isn't bound when the loop is written.
pub fn begin_loop(source: &BindingId, is_bound: &StableSet<BindingId>) {
    if !is_bound.contains(source) {
        WATCH.with_borrow_mut(|watch| watch.fault('a'));
    }
}

/// The arm of a one-arm match, before its pattern binds anything.
pub fn begin_pattern(arm: &MatchArm, is_bound: &StableSet<BindingId>) {
    let bindings = arm.bindings.iter().copied().flatten();
    let own = bindings.filter(|binding| !is_bound.contains(binding));
    WATCH.with_borrow_mut(|watch| watch.own = own.collect());
}

/// The source of that match, which is written after the pattern.
pub fn begin_source() {
    WATCH.with_borrow_mut(|watch| watch.is_source = true);
}

pub fn end_source() {
    WATCH.with_borrow_mut(|watch| watch.is_source = false);
}

/// A bound binding's name in an expression.
pub fn name(binding: BindingId) {
    WATCH.with_borrow_mut(|watch| watch.name(binding));
}

/// A call of iterator kind: (b) if it isn't the member itself. A member can't stand inside its own
/// expression, since sources are lower than their binding.
pub fn iterator_call(binding: BindingId) {
    WATCH.with_borrow_mut(|watch| {
        if watch.member != Some(binding) {
            watch.fault('b');
        }
        watch.name(binding);
    });
}
