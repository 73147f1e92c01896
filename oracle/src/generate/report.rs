//! The report of `--coverage`: what the plans of a run reached, from their answers by the crate.

use crate::damaged::Damaged;
use crate::faults::FAULTS;
use crate::features::{ANSWERS, FEATURES, Features, SCHEDULE, SPLIT};
use crate::near::{CHANGES, Near};
use crate::pairs::Pair;
use crate::rows::Plan;
use crate::valid::MOST_BYTES;
use oracle::answer::{Answer, Form, answer, check};
use oracle::coverage;
use oracle::schedule::{Schedule, schedule};
use std::collections::BTreeMap;
use std::fmt::Write;

const LETTERS: [(&str, char); 3] = [("fault a", 'a'), ("fault b", 'b'), ("fault c", 'c')];
const NO_FAULT: &str = "no fault";
const TOO_LONG: &str = "text too long to watch";

/// What a run is to reach.
#[derive(Clone, Copy, PartialEq)]
pub enum Wanted {
    All,
    /// What pairs are made for.
    Split,
    /// What plans without a schedule fault are made for.
    Schedule,
    /// What near misses are made for.
    Changes,
    Nothing,
}

#[derive(Default)]
pub struct Report {
    features: Features,
    plans: u64,
    bytes: u64,
    numbers: BTreeMap<u8, u64>,
    faults: BTreeMap<&'static str, u64>,
    /// Sets of the numbers of several faults at once, and the refusal.
    together: BTreeMap<String, u64>,
    /// Schedule faults by letter, and the plans without a fault or with a text too long to watch.
    schedules: BTreeMap<&'static str, u64>,
    /// Changes of near misses: plans with a fault, without one, and with a text too long.
    changes: BTreeMap<&'static str, [u64; 3]>,
    wrong: Vec<String>,
}

impl Report {
    fn answered(&mut self, plan: &[u8]) -> Answer {
        // A little more than the buffer, so that texts just over its length are seen.
        let mut whole = answer(plan, Form::Whole, MOST_BYTES + 8);
        match whole.length {
            65_535 => self.features.add("whole text of 65,535 bytes"),
            65_536 => self.features.add("whole text of 65,536 bytes"),
            65_537 => self.features.add("whole text of 65,537 bytes"),
            _ => {}
        }
        if whole.number == 11 || whole.length > MOST_BYTES {
            whole.number = 11;
            self.features.add("text longer than the buffer");
            self.terms_length(plan);
        }
        if whole.count > 0 {
            self.features.add("odd literals");
        }
        self.plans += 1;
        self.bytes += plan.len() as u64;
        *self.numbers.entry(whole.number).or_default() += 1;
        whole
    }

    fn terms_length(&mut self, plan: &[u8]) {
        match answer(plan, Form::Terms, MOST_BYTES + 8).length {
            65_535 => self.features.add("terms text of 65,535 bytes"),
            65_536 => self.features.add("terms text of 65,536 bytes"),
            65_537 => self.features.add("terms text of 65,537 bytes"),
            _ => {}
        }
    }

    fn accepted(&mut self, index: u64, plan: &Plan) -> Answer {
        self.features.count(plan);
        let answer = self.answered(&plan.bytes());
        if (1..=10).contains(&answer.number) {
            self.wrong
                .push(format!("plan {index} is refused by {}", answer.number));
        }
        answer
    }

    pub fn valid(&mut self, index: u64, plan: &Plan) {
        self.accepted(index, plan);
    }

    fn schedule(&mut self, plan: &Plan) -> Schedule {
        let found = schedule(&plan.bytes());
        let mut count = |name, plans| *self.schedules.entry(name).or_default() += plans;
        match &found {
            Schedule::Refused(_) => {}
            Schedule::TooLong => count(TOO_LONG, 1),
            Schedule::Faults(faults) if faults.is_empty() => count(NO_FAULT, 1),
            Schedule::Faults(faults) => {
                for (name, letter) in LETTERS {
                    let of_letter = faults.iter().filter(|fault| fault.letter == letter);
                    count(name, of_letter.count() as u64);
                }
            }
        }
        found
    }

    /// A plan that is made to have no schedule fault.
    pub fn without_fault(&mut self, index: u64, plan: &Plan) {
        self.accepted(index, plan);
        let found = self.schedule(plan);
        if matches!(&found, Schedule::Faults(faults) if !faults.is_empty()) {
            self.wrong.push(format!("plan {index} has faults: {found}"));
        }
    }

    pub fn near(&mut self, index: u64, near: &Near) {
        self.accepted(index, &near.plan);
        let at = match self.schedule(&near.plan) {
            Schedule::Faults(faults) if !faults.is_empty() => 0,
            Schedule::Faults(_) => 1,
            Schedule::Refused(_) | Schedule::TooLong => 2,
        };
        self.changes.entry(near.change).or_default()[at] += 1;
    }

    pub fn pair(&mut self, index: u64, pair: &Pair) {
        let off = self.accepted(index, &pair.off);
        let on = self.accepted(index, &pair.on);
        if off.number == 0 && on.number == 0 && off.count != on.count {
            self.wrong.push(format!(
                "pair {index} has counts {} and {}",
                off.count, on.count
            ));
        }
    }

    pub fn damaged(&mut self, index: u64, damaged: &Damaged) {
        self.plans += 1;
        self.bytes += damaged.bytes.len() as u64;
        let number = check(&damaged.bytes).err().unwrap_or(0);
        *self.numbers.entry(number).or_default() += 1;
        for fault in &damaged.faults {
            *self.faults.entry(fault).or_default() += 1;
        }
        if damaged.expected.is_some_and(|expected| expected != number) {
            let faults = damaged.faults.join("; ");
            self.wrong.push(format!(
                "plan {index} is refused by {number}, not by {:?}: {faults}",
                damaged.expected
            ));
        }
        if damaged.expected.is_some() && damaged.faults.len() > 1 {
            *self
                .together
                .entry(numbers_of(&damaged.faults))
                .or_default() += 1;
        }
    }

    /// Prints the report of accepted plans; false if a plan was refused, or if something that is
    /// wanted was never reached.
    pub fn print_accepted(&self, wanted: Wanted) -> bool {
        let mut table = Table::default();
        self.lines(&mut table, wanted);
        self.features(&mut table, wanted);
        self.schedules(&mut table, wanted);
        let mut text = table.text;
        for (name, least, most, count) in self.features.sizes_seen() {
            let _ = writeln!(
                text,
                "sizes            {count:>14}  {name}: {least} to {most}"
            );
        }
        self.summary(&mut text);
        let _ = writeln!(text, "never reached: {}", table.never);
        eprint!("{text}");
        self.wrong.is_empty() && table.never == 0
    }

    /// The lines of codegen.rs that write, with their choices.
    fn lines(&self, table: &mut Table, wanted: Wanted) {
        for counted in coverage::counted() {
            let place = format!("codegen.rs {:>5}", counted.line);
            let choice = counted.text.map(|text| format!("    {text}"));
            let what = choice.as_deref().unwrap_or(counted.code);
            table.row(&place, counted.hits, what, wanted == Wanted::All);
        }
        for code in coverage::choices_without_line() {
            table.row("codegen.rs", 0, code, true);
        }
    }

    fn features(&self, table: &mut Table, wanted: Wanted) {
        for name in FEATURES.iter().chain(ANSWERS) {
            let is_wanted = match wanted {
                Wanted::All => true,
                Wanted::Split => SPLIT.contains(name),
                Wanted::Schedule => SCHEDULE.contains(name),
                Wanted::Changes | Wanted::Nothing => false,
            };
            table.row("plans", self.features.get(name), name, is_wanted);
        }
    }

    /// The schedules of plans that are made for them.
    fn schedules(&self, table: &mut Table, wanted: Wanted) {
        let is_near = wanted == Wanted::Changes;
        if !is_near && wanted != Wanted::Schedule {
            return;
        }
        let count = |name| self.schedules.get(name).copied().unwrap_or(0);
        for (name, _) in LETTERS {
            table.row("schedules", count(name), name, is_near);
        }
        table.row("schedules", count(NO_FAULT), NO_FAULT, true);
        table.row("schedules", count(TOO_LONG), TOO_LONG, false);
        for (change, _) in CHANGES.iter().filter(|_| is_near) {
            let [faulty, good, long] = self.changes.get(change).copied().unwrap_or_default();
            let what = format!("{change}: {faulty} with a fault, {good} without, {long} too long");
            table.row("changes", faulty + good + long, &what, true);
        }
    }

    fn summary(&self, text: &mut String) {
        for (number, count) in &self.numbers {
            let name = if *number == 0 {
                "accepted".to_string()
            } else {
                format!("refused {number}")
            };
            let _ = writeln!(text, "answers          {count:>14}  {name}");
        }
        for wrong in &self.wrong {
            let _ = writeln!(text, "wrong: {wrong}");
        }
        let _ = writeln!(
            text,
            "{} plans, {} bytes, {} wrong",
            self.plans,
            self.bytes,
            self.wrong.len()
        );
    }

    /// Prints the report of damaged plans; false if a refusal is not the one that the faults are
    /// made for.
    pub fn print_damaged(&self) -> bool {
        let mut table = Table::default();
        for fault in FAULTS {
            let count = self.faults.get(fault.name).copied().unwrap_or(0);
            let place = format!("fault {}", fault.number);
            table.row(&place, count, fault.name, false);
        }
        let mut text = table.text;
        let known = |name: &&str| FAULTS.iter().any(|fault| fault.name == *name);
        for (name, count) in self.faults.iter().filter(|(name, _)| !known(name)) {
            let _ = writeln!(text, "at random        {count:>14}  {name}");
        }
        for (numbers, count) in &self.together {
            let _ = writeln!(text, "at once          {count:>14}  {numbers}");
        }
        self.summary(&mut text);
        eprint!("{text}");
        self.wrong.is_empty()
    }
}

/// Counts, one a line.
#[derive(Default)]
struct Table {
    text: String,
    /// How many of those wanted are 0.
    never: usize,
}

impl Table {
    fn row(&mut self, place: &str, count: u64, what: &str, wanted: bool) {
        let never = wanted && count == 0;
        self.never += never as usize;
        let count = if never {
            "never reached".to_string()
        } else {
            count.to_string()
        };
        let _ = writeln!(self.text, "{place:<16} {count:>14}  {what}");
    }
}

/// The different refusal numbers of the faults, in order.
fn numbers_of(faults: &[&'static str]) -> String {
    let number = |name: &&str| {
        FAULTS
            .iter()
            .find(|fault| fault.name == *name)
            .map(|f| f.number)
    };
    let mut numbers: Vec<u8> = faults.iter().filter_map(number).collect();
    numbers.sort();
    numbers.dedup();
    numbers
        .iter()
        .map(u8::to_string)
        .collect::<Vec<_>>()
        .join(" ")
}
