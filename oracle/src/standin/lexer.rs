//! Stands in for the crate's lexer, of which only positions are used.

use crate::files::Files;

/// A position. `offset` is a row of the plan's `pos` table; `file` is unused.
#[derive(Clone, Copy, Debug, Default, Eq, Hash, Ord, PartialEq, PartialOrd)]
pub struct Pos {
    pub file: usize,
    pub offset: usize,
}

impl Pos {
    /// What the crate prints as `file line number` is the text of the plan's row, which
    /// `environment` puts into `file_texts`.
    pub fn pretty_print_line(&self, files: &Files) -> String {
        files.file_texts[self.offset].clone()
    }
}
