//! The program without `--cfg coverage` has nothing to count with.

use crate::damaged::Damaged;
use crate::near::Near;
use crate::pairs::Pair;
use crate::rows::Plan;

pub enum Wanted {
    All,
    Split,
    Schedule,
    Changes,
    Nothing,
}

#[derive(Default)]
pub struct Report;

impl Report {
    pub fn valid(&mut self, _: u64, _: &Plan) {}

    pub fn pair(&mut self, _: u64, _: &Pair) {}

    pub fn damaged(&mut self, _: u64, _: &Damaged) {}

    pub fn without_fault(&mut self, _: u64, _: &Plan) {}

    pub fn near(&mut self, _: u64, _: &Near) {}

    pub fn print_accepted(&self, _: Wanted) -> bool {
        self.print_damaged()
    }

    pub fn print_damaged(&self) -> bool {
        eprintln!("generate: this program was built without --cfg coverage");
        false
    }
}
