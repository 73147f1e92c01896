//! The oracle's command line: one plan on standard input, or many in frames. README.md has the
//! commands and the layout of a frame.

use oracle::answer::{Form, answer, check, with_large_stack};
use oracle::schedule::schedule;
use std::io::{self, BufRead, Read, Write};
use std::process::exit;

const USAGE: &str =
    "usage: oracle/run [many] whole|terms|count [BUFFER] | [many] check|schedule | frames FILE..";

fn main() {
    let args: Vec<String> = std::env::args().skip(1).collect();
    let args: Vec<&str> = args.iter().map(String::as_str).collect();
    let done = match args.as_slice() {
        ["frames", files @ ..] => print_frames(files),
        ["many", args @ ..] => {
            let job = job_or_usage(args);
            with_large_stack(|| answer_frames(job))
        }
        args => {
            let job = job_or_usage(args);
            with_large_stack(|| answer_one(job))
        }
    };
    if let Err(error) = done {
        eprintln!("oracle/run: {error}");
        exit(1);
    }
}

/// What is printed for a plan.
#[derive(Clone, Copy)]
enum Job {
    Text(Form, usize),
    Count(usize),
    Check,
    Schedule,
}

fn job_or_usage(args: &[&str]) -> Job {
    job(args).unwrap_or_else(|| {
        eprintln!("{USAGE}");
        exit(2)
    })
}

fn job(args: &[&str]) -> Option<Job> {
    let buffer = || match args[1..] {
        [] => Some(65_536),
        [buffer] => buffer.parse().ok(),
        _ => None,
    };
    match *args.first()? {
        "whole" => Some(Job::Text(Form::Whole, buffer()?)),
        "terms" => Some(Job::Text(Form::Terms, buffer()?)),
        "count" => Some(Job::Count(buffer()?)),
        "check" if args.len() == 1 => Some(Job::Check),
        "schedule" if args.len() == 1 => Some(Job::Schedule),
        _ => None,
    }
}

fn printed(job: Job, plan: &[u8]) -> String {
    match job {
        Job::Text(form, buffer) => {
            let answer = answer(plan, form, buffer);
            match answer.number {
                0 => answer.text,
                number => format!("refused {number}\n"),
            }
        }
        Job::Count(buffer) => {
            let answer = answer(plan, Form::Whole, buffer);
            format!("{} {} {}\n", answer.number, answer.length, answer.count)
        }
        Job::Check => match check(plan) {
            Ok(()) => "accepted\n".to_string(),
            Err(number) => format!("refused {number}\n"),
        },
        Job::Schedule => schedule(plan).to_string(),
    }
}

fn answer_one(job: Job) -> io::Result<()> {
    let mut plan = Vec::new();
    // One byte more than a plan may have is as good as all of them.
    io::stdin().lock().take(65_537).read_to_end(&mut plan)?;
    io::stdout()
        .lock()
        .write_all(printed(job, &plan).as_bytes())
}

fn answer_frames(job: Job) -> io::Result<()> {
    let mut input = io::BufReader::with_capacity(1 << 16, io::stdin().lock());
    let mut output = io::BufWriter::with_capacity(1 << 16, io::stdout().lock());
    let mut number = 0;
    while let Some(plan) = read_frame(&mut input)? {
        let told = Told { number };
        let text = printed(job, &plan);
        drop(told);
        write_frame(&mut output, text.as_bytes())?;
        // Whoever waits for an answer before sending the next plan gets it.
        if input.buffer().is_empty() {
            output.flush()?;
        }
        number += 1;
    }
    output.flush()
}

/// Says which plan was being answered if the crate's code panics.
struct Told {
    number: usize,
}

impl Drop for Told {
    fn drop(&mut self) {
        if std::thread::panicking() {
            eprintln!("oracle/run: panic at frame {}", self.number);
        }
    }
}

fn read_frame(input: &mut impl BufRead) -> io::Result<Option<Vec<u8>>> {
    let mut line = String::new();
    if input.read_line(&mut line)? == 0 {
        return Ok(None);
    }
    let bad = |what: &str| io::Error::new(io::ErrorKind::InvalidData, what.to_string());
    let length = line
        .strip_suffix('\n')
        .and_then(|line| line.parse::<usize>().ok());
    let length = length.ok_or_else(|| bad("a frame begins with its length and LF"))?;
    let mut bytes = Vec::new();
    input.take(length as u64).read_to_end(&mut bytes)?;
    if bytes.len() < length {
        return Err(bad("a frame ends before its length"));
    }
    Ok(Some(bytes))
}

fn write_frame(output: &mut impl Write, bytes: &[u8]) -> io::Result<()> {
    write!(output, "{}\n", bytes.len())?;
    output.write_all(bytes)
}

fn print_frames(files: &[&str]) -> io::Result<()> {
    let mut output = io::BufWriter::new(io::stdout().lock());
    for file in files {
        write_frame(&mut output, &std::fs::read(file)?)?;
    }
    output.flush()
}
