//! The schedule check: the faults that the crate's emitter is seen to make of a plan.

use crate::answer::Bounded;
use crate::environment::{Environment, binding_ids};
use crate::plan::{Generated, Plan, Refusal, RowKind};
use crate::watch::{self, Fault, StepRow};
use crate::watched_codegen::{Codegen, CodegenOptions};
use std::collections::VecDeque;
use std::fmt;

/// Faults are found while the text is written, and a small plan can have a text beyond any memory.
const MOST_BYTES: usize = 4_000_000;

#[derive(Debug, PartialEq, Eq)]
pub enum Schedule {
    Refused(Refusal),
    Faults(Vec<Fault>),
    /// The text of the terms is longer than this check writes.
    TooLong,
}

impl fmt::Display for Schedule {
    fn fmt(&self, f: &mut fmt::Formatter) -> fmt::Result {
        match self {
            Schedule::Refused(number) => writeln!(f, "refused {number}"),
            Schedule::TooLong => writeln!(f, "too long"),
            Schedule::Faults(faults) => {
                writeln!(f, "term row fault")?;
                faults.iter().try_for_each(|fault| {
                    writeln!(f, "{} {} {}", fault.term, fault.row, fault.letter)
                })
            }
        }
    }
}

pub fn schedule(plan: &[u8]) -> Schedule {
    match Plan::read(plan) {
        Err(number) => Schedule::Refused(number),
        Ok(plan) => match watched(&plan) {
            Some((_, faults)) => Schedule::Faults(faults),
            None => Schedule::TooLong,
        },
    }
}

/// The text of an accepted plan's terms as the watched copy writes it, and the faults.
pub fn watched(plan: &Plan) -> Option<(String, Vec<Fault>)> {
    let env = Environment::of(plan);
    let codegen = Codegen::compile(env.files.clone(), &env.typeenv, &env.termenv, &env.terms);
    watch::begin(plan.generated.iter().map(step_rows).collect());
    let mut code = Bounded::new(MOST_BYTES);
    match codegen.generate_internal_term_constructors(&mut code, &options(&env)) {
        Ok(()) => Some((code.text, watch::end().into_iter().collect())),
        Err(fmt::Error) if code.is_over => None,
        Err(fmt::Error) => panic!("an error that the writer didn't report"),
    }
}

fn step_rows(generated: &Generated) -> VecDeque<StepRow> {
    let rows = generated.block.iter().enumerate();
    rows.filter_map(|(row, block_row)| match &block_row.kind {
        RowKind::Step { bind_order, .. } => Some(StepRow {
            row,
            bind_order: binding_ids(bind_order),
        }),
        RowKind::Arm { .. } => None,
    })
    .collect()
}

/// The copy has a type of its own for the options.
fn options(env: &Environment) -> CodegenOptions {
    CodegenOptions {
        exclude_global_allow_pragmas: env.options.exclude_global_allow_pragmas,
        prefixes: Vec::new(),
        emit_logging: env.options.emit_logging,
        split_match_arms: env.options.split_match_arms,
        match_arm_split_threshold: env.options.match_arm_split_threshold,
    }
}
