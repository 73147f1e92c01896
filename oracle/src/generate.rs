//! `generate KIND SEED COUNT DIR [--coverage] [--profile NAME]`: seeded plans of a kind, as files of
//! the folder DIR, or as frames on standard output if DIR is `-`.

#[path = "generate/base.rs"]
mod base;
#[path = "generate/bindings.rs"]
mod bindings;
#[path = "generate/blocks.rs"]
mod blocks;
#[path = "generate/cells.rs"]
mod cells;
#[path = "generate/damaged.rs"]
mod damaged;
#[path = "generate/deep.rs"]
mod deep;
#[path = "generate/environment.rs"]
mod environment;
#[path = "generate/explode.rs"]
mod explode;
#[path = "generate/faults.rs"]
mod faults;
#[path = "generate/faults_accepted.rs"]
mod faults_accepted;
#[path = "generate/faults_levels.rs"]
mod faults_levels;
#[path = "generate/faults_limits.rs"]
mod faults_limits;
#[path = "generate/faults_references.rs"]
mod faults_references;
#[path = "generate/faults_tables.rs"]
mod faults_tables;
#[path = "generate/faults_values.rs"]
mod faults_values;
#[cfg(coverage)]
#[path = "generate/features.rs"]
mod features;
#[path = "generate/limits.rs"]
mod limits;
#[path = "generate/near.rs"]
mod near;
#[path = "generate/pairs.rs"]
mod pairs;
#[path = "generate/random.rs"]
mod random;
#[path = "generate/repaired.rs"]
mod repaired;
#[cfg(coverage)]
#[path = "generate/report.rs"]
mod report;
#[cfg(not(coverage))]
#[path = "generate/no_report.rs"]
mod report;
#[path = "generate/rows.rs"]
mod rows;
#[path = "generate/scheduled.rs"]
mod scheduled;
#[path = "generate/scope.rs"]
mod scope;
#[path = "generate/texts.rs"]
mod texts;
#[path = "generate/valid.rs"]
mod valid;

use random::Random;
use report::{Report, Wanted};
use std::io::{BufWriter, Write};
use std::path::PathBuf;
use std::process::ExitCode;

const USAGE: &str = "usage: generate valid|pairs|damaged|scheduled|repaired|near SEED COUNT DIR \
                     [--coverage] [--profile NAME]";

#[derive(Clone, Copy, PartialEq)]
enum Command {
    Valid,
    Pairs,
    Damaged,
    Scheduled,
    Repaired,
    Near,
}

struct Arguments {
    command: Command,
    seed: u64,
    count: u64,
    folder: String,
    coverage: bool,
    profile: Option<&'static str>,
}

fn arguments() -> Option<Arguments> {
    let mut plain = Vec::new();
    let (mut coverage, mut profile) = (false, None);
    let mut given = std::env::args().skip(1);
    while let Some(argument) = given.next() {
        match argument.as_str() {
            "--coverage" => coverage = true,
            "--profile" => {
                let name = given.next()?;
                profile = Some(valid::PROFILES.iter().find(|(known, _)| *known == name)?.0);
            }
            _ => plain.push(argument),
        }
    }
    let [command, seed, count, folder] = plain.try_into().ok()?;
    let command = match command.as_str() {
        "valid" => Command::Valid,
        "pairs" => Command::Pairs,
        "damaged" => Command::Damaged,
        "scheduled" => Command::Scheduled,
        "repaired" => Command::Repaired,
        "near" => Command::Near,
        _ => return None,
    };
    let (seed, count) = (seed.parse().ok()?, count.parse().ok()?);
    Some(Arguments {
        command,
        seed,
        count,
        folder,
        coverage,
        profile,
    })
}

/// Where the plans go.
enum Output {
    Frames(BufWriter<std::io::Stdout>),
    Files(PathBuf),
}

impl Output {
    fn new(folder: &str) -> std::io::Result<Output> {
        if folder == "-" {
            return Ok(Output::Frames(BufWriter::with_capacity(
                1 << 16,
                std::io::stdout(),
            )));
        }
        std::fs::create_dir_all(folder)?;
        Ok(Output::Files(PathBuf::from(folder)))
    }

    fn put(&mut self, index: u64, suffix: &str, plan: &[u8]) -> std::io::Result<()> {
        match self {
            Output::Frames(frames) => {
                writeln!(frames, "{}", plan.len())?;
                frames.write_all(plan)
            }
            Output::Files(folder) => {
                std::fs::write(folder.join(format!("{index:06}{suffix}.plan")), plan)
            }
        }
    }

    fn finish(self) -> std::io::Result<()> {
        match self {
            Output::Frames(mut frames) => frames.flush(),
            Output::Files(_) => Ok(()),
        }
    }
}

/// A plan of the profile; of any if none is given.
fn valid_plan(random: &mut Random, profile: Option<&'static str>) -> rows::Plan {
    let profile = profile.unwrap_or_else(|| valid::profile(random));
    valid::plan(random, profile)
}

/// Makes the plan, or the pair, of number `index`.
fn put(
    arguments: &Arguments,
    index: u64,
    output: &mut Output,
    report: &mut Option<Report>,
) -> std::io::Result<()> {
    let mut random = Random::for_plan(arguments.seed, index);
    let report = report.iter_mut();
    match arguments.command {
        Command::Valid => {
            let plan = valid_plan(&mut random, arguments.profile);
            report.for_each(|report| report.valid(index, &plan));
            output.put(index, "", &plan.bytes())
        }
        Command::Pairs => {
            let pair = pairs::pair(&mut random);
            report.for_each(|report| report.pair(index, &pair));
            output.put(index, ".off", &pair.off.bytes())?;
            output.put(index, ".on", &pair.on.bytes())
        }
        Command::Damaged => {
            let damaged = damaged::damaged(&mut random);
            report.for_each(|report| report.damaged(index, &damaged));
            output.put(index, "", &damaged.bytes)
        }
        Command::Scheduled | Command::Repaired => {
            let plan = match arguments.command {
                Command::Scheduled => scheduled::plan(&mut random),
                _ => repaired::plan(&mut random),
            };
            report.for_each(|report| report.without_fault(index, &plan));
            output.put(index, "", &plan.bytes())
        }
        Command::Near => {
            let near = near::near(&mut random);
            report.for_each(|report| report.near(index, &near));
            output.put(index, "", &near.plan.bytes())
        }
    }
}

/// Makes the plans; false if the report says that something is wrong or missing.
fn run(arguments: &Arguments) -> std::io::Result<bool> {
    let mut output = Output::new(&arguments.folder)?;
    let mut report = arguments.coverage.then(Report::default);
    for index in 0..arguments.count {
        put(arguments, index, &mut output, &mut report)?;
    }
    output.finish()?;
    Ok(report.is_none_or(|report| match arguments.command {
        Command::Valid if arguments.profile.is_none() => report.print_accepted(Wanted::All),
        Command::Valid => report.print_accepted(Wanted::Nothing),
        Command::Pairs => report.print_accepted(Wanted::Split),
        Command::Damaged => report.print_damaged(),
        Command::Scheduled | Command::Repaired => report.print_accepted(Wanted::Schedule),
        Command::Near => report.print_accepted(Wanted::Changes),
    }))
}

fn main() -> ExitCode {
    let Some(arguments) = arguments() else {
        eprintln!("{USAGE}");
        return ExitCode::from(2);
    };
    // The report's answers nest as deeply as the plans.
    match oracle::answer::with_large_stack(|| run(&arguments)) {
        Ok(true) => ExitCode::SUCCESS,
        Ok(false) => ExitCode::FAILURE,
        Err(error) => {
            eprintln!("generate: {error}");
            ExitCode::FAILURE
        }
    }
}
