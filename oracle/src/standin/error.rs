//! Stands in for the crate's errors, which only its type checker and rule builder report.

use crate::lexer::Pos;

#[derive(Debug)]
pub enum Error {
    TypeError { msg: String, span: Span },
    UnreachableError { msg: String, span: Span },
}

#[derive(Debug)]
pub struct Span {
    pub from: Pos,
}

impl Span {
    pub fn new_single(pos: Pos) -> Span {
        Span { from: pos }
    }
}
