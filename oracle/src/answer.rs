//! The answer to a plan and a buffer: a number, the text and the count of odd literals.

use crate::codegen::Codegen;
use crate::environment::Environment;
use crate::odd;
use crate::plan::{Plan, Refusal};
use std::fmt::{self, Write};

/// Which text is asked for.
#[derive(Clone, Copy, Debug, PartialEq, Eq)]
pub enum Form {
    /// All that `codegen` writes.
    Whole,
    /// Only what `generate_internal_term_constructors` writes.
    Terms,
}

/// A refusal has length 0, count 0 and no text; otherwise `number` is 0.
#[derive(Debug, PartialEq, Eq)]
pub struct Answer {
    pub number: Refusal,
    pub length: usize,
    pub count: u64,
    pub text: String,
}

/// Refusals 1 to 10; `Ok` for an accepted plan.
pub fn check(plan: &[u8]) -> Result<(), Refusal> {
    Plan::read(plan).map(|_| ())
}

/// The answer for any bytes and a buffer of the given length.
pub fn answer(plan: &[u8], form: Form, buffer: usize) -> Answer {
    match accepted(plan, form, buffer) {
        Ok((text, count)) => Answer {
            number: 0,
            length: text.len(),
            count,
            text,
        },
        Err(number) => Answer {
            number,
            length: 0,
            count: 0,
            text: String::new(),
        },
    }
}

fn accepted(plan: &[u8], form: Form, buffer: usize) -> Result<(String, u64), Refusal> {
    let plan = Plan::read(plan)?;
    let text = emit(&Environment::of(&plan), form, buffer).ok_or(11u8)?;
    Ok((text, odd::count(&plan)))
}

/// What `generate_rust` does, in a bounded buffer; `None` if the text is longer.
fn emit(env: &Environment, form: Form, buffer: usize) -> Option<String> {
    let codegen = Codegen::compile(env.files.clone(), &env.typeenv, &env.termenv, &env.terms);
    let mut head = Head(Bounded::new(buffer));
    if form == Form::Whole {
        codegen.generate_header(&mut head, &env.options);
        codegen.generate_ctx_trait(&mut head);
        codegen.generate_internal_types(&mut head);
    }
    let Head(mut code) = head;
    if code.is_over {
        return None;
    }
    match codegen.generate_internal_term_constructors(&mut code, &env.options) {
        Ok(()) => Some(code.text),
        Err(fmt::Error) if code.is_over => None,
        Err(fmt::Error) => panic!("an error that the writer didn't report"),
    }
}

/// A buffer that reports an error as soon as the text is longer, which makes codegen.rs stop: a
/// small plan can have a text beyond any memory.
pub struct Bounded {
    pub text: String,
    buffer: usize,
    pub is_over: bool,
}

impl Bounded {
    pub fn new(buffer: usize) -> Bounded {
        Bounded {
            text: String::new(),
            buffer,
            is_over: false,
        }
    }
}

impl Write for Bounded {
    fn write_str(&mut self, s: &str) -> fmt::Result {
        self.is_over |= self.text.len() + s.len() > self.buffer;
        if self.is_over {
            return Err(fmt::Error);
        }
        self.text.push_str(s);
        Ok(())
    }
}

/// The same without the error, since the functions for header, trait and types unwrap theirs. What
/// they write is bounded by the plan.
struct Head(Bounded);

impl Write for Head {
    fn write_str(&mut self, s: &str) -> fmt::Result {
        let _ = self.0.write_str(s);
        Ok(())
    }
}

/// Runs a program's work on a thread whose stack holds any plan's nesting: 1,024 sources deep and
/// 64 levels. A panic of the work is a panic of the program.
pub fn with_large_stack<T: Send>(work: impl FnOnce() -> T + Send) -> T {
    let stack = std::thread::Builder::new().stack_size(512 << 20);
    std::thread::scope(|scope| {
        let thread = stack
            .spawn_scoped(scope, work)
            .expect("a thread for the work");
        thread
            .join()
            .unwrap_or_else(|panic| std::panic::resume_unwind(panic))
    })
}
