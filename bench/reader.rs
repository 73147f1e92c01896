//! The proved reader as a C function beside the oracle's Rust reader. `check` takes plans in frames on standard input
//! (oracle/README.md) and writes for each a frame as `oracle/run many check` does; `time FILE..` prints the time of both on the
//! same plans, in the same run; `count FILE..` calls what callgrind counts (count.py).

use std::collections::BTreeMap;
use std::hint::black_box;
use std::io::Write;
use std::path::Path;
use std::process::ExitCode;
use std::time::Instant;

use oracle::plan::Plan;

mod counted;
mod frames;

use counted::counted;

// A `&[u8]` passes as a pointer and a length.
unsafe extern "C" {
    fn rizhavel_refusal(plan: *const u8, plan_len: usize) -> u32;
}

/// The number of the lowest refusal, 0 for an accepted plan.
fn ours(plan: &[u8]) -> u32 {
    unsafe { rizhavel_refusal(plan.as_ptr(), plan.len()) }
}

fn theirs(plan: &[u8]) -> u32 {
    Plan::read(plan).err().map_or(0, u32::from)
}

fn check(plans: &[Vec<u8>]) {
    let mut out = std::io::stdout().lock();
    for plan in plans {
        let line = match ours(plan) {
            0 => "accepted\n".to_string(),
            n => format!("refused {n}\n"),
        };
        write!(out, "{}\n{line}", line.len()).expect("standard output");
    }
}

/// The least time of many runs of each reader in turn, in microseconds.
fn time(plan: &[u8]) -> (f64, f64) {
    let one = |read: fn(&[u8]) -> u32| {
        let start = Instant::now();
        black_box(read(black_box(plan)));
        start.elapsed().as_nanos() as f64 / 1000.0
    };
    let mut least = (f64::MAX, f64::MAX);
    for _ in 0..200 {
        least = (least.0.min(one(ours)), least.1.min(one(theirs)));
    }
    least
}

/// What callgrind counts of our side, and of the oracle's.
#[unsafe(no_mangle)]
#[inline(never)]
fn side_ours(plan: &[u8]) -> u32 {
    black_box(ours(black_box(plan)))
}

#[unsafe(no_mangle)]
#[inline(never)]
fn side_theirs(plan: &[u8]) -> u32 {
    black_box(theirs(black_box(plan)))
}

fn name(path: &str) -> &str {
    Path::new(path).file_stem().and_then(|name| name.to_str()).expect("a name")
}

/// Calls each side once on each plan, ours first, and prints the plan's name, its length and the number.
fn count(paths: &[String]) -> bool {
    println!("{:<16} {:>8} {:>8}", "plan", "bytes", "number");
    for path in paths {
        let plan = std::fs::read(path).expect("a plan");
        let number = side_ours(&plan);
        counted();
        let same = side_theirs(&plan) == number;
        counted();
        println!("{:<16} {:8} {number:8}", name(path), plan.len());
        if !same {
            return false;
        }
    }
    true
}

/// Names of the form `SHAPE.SIZE` belong to plans of one shape that differ in their length only.
fn sized(name: &str) -> Option<(&str, usize)> {
    let (shape, size) = name.rsplit_once('.')?;
    Some((shape, size.parse().ok()?))
}

/// The ratio for each plan, then the time for a byte of each shape by its length. Whether no plan of 65,536 bytes takes longer than
/// it takes the oracle, and a byte of such a plan no more than one and a half times what it takes in a plan of an eighth.
fn time_all(paths: &[String]) -> bool {
    let mut worst: f64 = 0.0;
    let mut growth: BTreeMap<String, BTreeMap<usize, f64>> = BTreeMap::new();
    println!("{:<16} {:>8} {:>8} {:>12} {:>12}   ratio", "plan", "bytes", "number", "ours", "oracle");
    for path in paths {
        let name = name(path);
        let plan = std::fs::read(path).expect("a plan");
        let (a, b) = time(&plan);
        if plan.len() == 65_536 {
            worst = worst.max(a / b);
        }
        println!("{name:<16} {:8} {:8} {a:9.1} us {b:9.1} us   {:.2}", plan.len(), ours(&plan), a / b);
        if let Some((shape, size)) = sized(name) {
            growth.entry(shape.to_string()).or_default().insert(size, a);
        }
    }
    let mut steepest: f64 = 0.0;
    for (shape, times) in &growth {
        let each = times.iter().map(|(size, us)| (size, us * 1000.0 / *size as f64));
        let texts: Vec<_> = each.clone().map(|(size, ns)| format!("{ns:.2} at {size}")).collect();
        println!("ns a byte, {shape}: {}", texts.join(", "));
        let by_byte: Vec<f64> = each.map(|(_, ns)| ns).collect();
        steepest = steepest.max(by_byte[by_byte.len() - 1] / by_byte[0]);
    }
    println!("worst ratio at 65,536 bytes {worst:.2}; a byte of the longest to one of the shortest at most {steepest:.2}");
    worst <= 1.0 && steepest <= 1.5
}

fn main() -> ExitCode {
    let arguments: Vec<String> = std::env::args().skip(1).collect();
    let good = match arguments.first().map(String::as_str) {
        Some("check") => {
            check(&frames::frames());
            true
        }
        Some("time") => time_all(&arguments[1..]),
        Some("count") => count(&arguments[1..]),
        _ => {
            eprintln!("usage: reader check < frames, reader time|count FILE..");
            return ExitCode::from(2);
        }
    };
    if good { ExitCode::SUCCESS } else { ExitCode::FAILURE }
}
