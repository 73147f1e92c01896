//! The command `rizhavel`: what the library does, for people at a terminal.

mod rows;

use std::fs::File;
use std::io::{self, Read, Write};
use std::process::ExitCode;

use rizhavel::Refusal;
use rows::Rows;

const HELP: &str = "\
usage: rizhavel emit [PLAN]
       rizhavel check [PLAN]

emit    writes the Rust text of a plan to standard output. How many integer literals lie outside
        their type's range is said on standard error, where there are any.
check   prints each row of a plan that uses a name before it is introduced, with the rule that it breaks.

PLAN is a file, or - (or nothing) for standard input. docs/PLAN.md describes plans.
Exit status: 0 a text, or no fault; 1 a fault, or the plan is turned away, which is said on
standard error; 2 bad usage, or a file that can't be read or written.
";

/// The longest text: a small plan can have one beyond any memory.
const TEXT_MOST: usize = 1 << 28;

const MOST_PLAN: u64 = 65_536;

/// Why the status is not 0, and what is said of it on standard error.
enum Failure {
    Refused(String),
    Faults,
    Bad(String),
}

fn main() -> ExitCode {
    let words: Vec<String> = std::env::args().skip(1).collect();
    let words: Vec<&str> = words.iter().map(String::as_str).collect();
    let (status, said) = match run(&words) {
        Ok(()) => (0, None),
        Err(Failure::Faults) => (1, None),
        Err(Failure::Refused(what)) => (1, Some(what)),
        Err(Failure::Bad(what)) => (2, Some(what)),
    };
    if let Some(what) = said {
        eprintln!("rizhavel: {what}");
    }
    ExitCode::from(status)
}

fn run(words: &[&str]) -> Result<(), Failure> {
    match words {
        words if words.contains(&"--help") || words.contains(&"-h") => print(HELP.as_bytes()),
        ["emit", rest @ ..] => emit(&Plan::read(rest)?),
        ["check", rest @ ..] => check(&Plan::read(rest)?),
        [] => Err(Failure::Bad("emit or check? --help says more".into())),
        [other, ..] => Err(Failure::Bad(format!("{other} is none of emit and check; --help says more"))),
    }
}

/// A plan and the name by which it is spoken of.
struct Plan {
    name: String,
    bytes: Vec<u8>,
}

impl Plan {
    fn read(words: &[&str]) -> Result<Plan, Failure> {
        let (name, file) = match words {
            [] | ["-"] => ("standard input", None),
            [option] if option.starts_with('-') => {
                return Err(Failure::Bad(format!("unknown option {option}; --help says more")));
            }
            [file] => (*file, Some(file)),
            _ => return Err(Failure::Bad("one plan at a time".into())),
        };
        // One byte more than a plan may have is enough for it to be refused.
        let mut bytes = Vec::new();
        let read = match file {
            None => io::stdin().lock().take(MOST_PLAN + 1).read_to_end(&mut bytes),
            Some(file) => File::open(file).and_then(|file| file.take(MOST_PLAN + 1).read_to_end(&mut bytes)),
        };
        read.map_err(|error| Failure::Bad(format!("{name}: {error}")))?;
        Ok(Plan { name: name.into(), bytes })
    }

    fn refused(&self, refusal: Refusal) -> Failure {
        Failure::Refused(format!("{}: {refusal}", self.name))
    }
}

fn emit(plan: &Plan) -> Result<(), Failure> {
    let text = rizhavel::emit_to_vec(&plan.bytes, TEXT_MOST).map_err(|refusal| plan.refused(refusal))?;
    print(&text.bytes)?;
    if text.odd_literals > 0 {
        eprintln!("rizhavel: {}: integer literals outside their type's range: {}", plan.name, text.odd_literals);
    }
    Ok(())
}

/// Each block by itself, since a term can be generated twice and the faults name the term alone.
fn check(plan: &Plan) -> Result<(), Failure> {
    rizhavel::schedule(&plan.bytes).map_err(|refusal| plan.refused(refusal))?;
    let (rows, mut sentences) = (Rows::of_accepted(&plan.bytes), String::new());
    for block in 0..rows.block_count() {
        let faults = rizhavel::schedule(&rows.plan_of(block)).map_err(|refusal| plan.refused(refusal))?;
        for fault in faults {
            let (line, row) = rows.row(block, fault.row);
            let (term, letter, rule) = (rows.term_name(fault.term), fault.rule.letter(), fault.rule);
            sentences += &format!("{}:{line}: in the term {term}, row {} `{row}`: ({letter}) {rule}\n", plan.name, fault.row);
        }
    }
    if sentences.is_empty() {
        return print(format!("{}: no fault\n", plan.name).as_bytes());
    }
    print(sentences.as_bytes())?;
    Err(Failure::Faults)
}

/// A reader that went away is no failure of ours.
fn print(bytes: &[u8]) -> Result<(), Failure> {
    let mut output = io::stdout().lock();
    match output.write_all(bytes).and_then(|()| output.flush()) {
        Err(error) if error.kind() != io::ErrorKind::BrokenPipe => Err(Failure::Bad(format!("standard output: {error}"))),
        _ => Ok(()),
    }
}
