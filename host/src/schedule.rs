//! The schedule check: which rows of a plan's blocks use a name before it is introduced.

use std::fmt;
use std::str;

use crate::{Refusal, call, rizhavel_schedule};

/// No sheet is longer, whatever the plan: `sheet_room` of `crates/schedule_rules` for 65,536 bytes.
const SHEET_MOST: usize = 288_369;

/// The rule that a row breaks.
#[derive(Clone, Copy, Debug, PartialEq, Eq, PartialOrd, Ord)]
pub enum Rule {
    /// (a) The iterator source of a loop is bound before the loop.
    LoopSourceBound,
    /// (b) A call of iterator kind is written only as a member of a step's list.
    CallInList,
    /// (c) The source of a match of one arm does not use what this arm binds.
    SourceBeforeArm,
}

impl Rule {
    /// The letter of the sheet: `a`, `b` or `c`.
    pub fn letter(self) -> char {
        match self {
            Rule::LoopSourceBound => 'a',
            Rule::CallInList => 'b',
            Rule::SourceBeforeArm => 'c',
        }
    }

    fn of_letter(letter: &str) -> Option<Rule> {
        [Rule::LoopSourceBound, Rule::CallInList, Rule::SourceBeforeArm]
            .into_iter()
            .find(|rule| letter.chars().eq([rule.letter()]))
    }
}

impl fmt::Display for Rule {
    fn fmt(&self, f: &mut fmt::Formatter<'_>) -> fmt::Result {
        f.write_str(match self {
            Rule::LoopSourceBound => {
                "the iterator source of the loop is not bound before it: put it into the list of the loop's row or of a row before it"
            }
            Rule::CallInList => {
                "a call of iterator kind is written outside of a list: put its binding into the list of this row or of a row before it"
            }
            Rule::SourceBeforeArm => {
                "the source of the match uses a binding of its own arm: put that binding into the list of this row or of a row before it"
            }
        })
    }
}

/// A row of a block that uses a name before it is introduced.
#[derive(Clone, Copy, Debug, PartialEq, Eq)]
pub struct Fault {
    /// The generated term's row in the table of terms.
    pub term: usize,
    /// The row of its block, from 0.
    pub row: usize,
    pub rule: Rule,
}

impl fmt::Display for Fault {
    fn fmt(&self, f: &mut fmt::Formatter<'_>) -> fmt::Result {
        write!(f, "term {}, row {}: ({}) {}", self.term, self.row, self.rule.letter(), self.rule)
    }
}

/// A line of the sheet below its names line: it is proved to be two numbers and a letter.
fn fault(line: &str) -> Option<Fault> {
    let mut columns = line.split(' ');
    let fault = Fault {
        term: columns.next()?.parse().ok()?,
        row: columns.next()?.parse().ok()?,
        rule: Rule::of_letter(columns.next()?)?,
    };
    columns.next().is_none().then_some(fault)
}

/// The faults of a plan's schedule, in the order of its rows. A plan that fails one of the checks
/// 1 to 10 is refused; the length of its text plays no part.
pub fn schedule(plan: &[u8]) -> Result<Vec<Fault>, Refusal> {
    let mut sheet = vec![0; SHEET_MOST];
    let length = call(rizhavel_schedule, plan, &mut sheet)?.length;
    let sheet = str::from_utf8(&sheet[..length]).expect("a sheet is ASCII");
    Ok(sheet.lines().skip(1).map(|line| fault(line).expect("a line of a sheet is two numbers and a letter")).collect())
}
