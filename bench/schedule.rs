//! The proved schedule check's C entry, on plans in frames on standard input.
//! `compare` holds number, length and every byte against the oracle's sheets, in rooms around the sheet's length; `check` prints what the
//! program `schedule` prints, as frames; `count` calls what callgrind counts (count.py); `time` prints the time of a check.

use std::hint::black_box;
use std::process::ExitCode;
use std::time::Instant;

use oracle::schedule::{Schedule, schedule};

mod counted;
mod frames;

use counted::counted;

type Entry = unsafe extern "C" fn(*const u8, usize, *mut u8, usize, *mut usize, usize) -> u32;

unsafe extern "C" {
    fn rizhavel_schedule(plan: *const u8, plan_len: usize, out: *mut u8, out_len: usize, answer: *mut usize, answer_len: usize) -> u32;
    fn rizhavel_whole(plan: *const u8, plan_len: usize, out: *mut u8, out_len: usize, answer: *mut usize, answer_len: usize) -> u32;
    fn rizhavel_refusal(plan: *const u8, plan_len: usize) -> u32;
}

/// Number and length.
fn ours(entry: Entry, plan: &[u8], out: &mut [u8]) -> (u32, usize) {
    let mut answer = [0usize; 2];
    let number = unsafe { entry(plan.as_ptr(), plan.len(), out.as_mut_ptr(), out.len(), answer.as_mut_ptr(), answer.len()) };
    (number, answer[0])
}

/// What a buffer's bytes are before a call, there and past its end.
const UNTOUCHED: u8 = 0xa5;
const BEYOND: usize = 64;

/// No sheet is longer.
const SHEET: usize = 288_369;

/// How often each call is timed.
const ROUNDS: usize = 20;

/// What is wrong with our answer in a room, if anything.
fn fault(plan: &[u8], room: usize, expected: &Schedule) -> Option<String> {
    let mut buffer = vec![UNTOUCHED; room + BEYOND];
    let got = ours(rizhavel_schedule, plan, &mut buffer[..room]);
    let sheet = match expected {
        Schedule::Faults(_) => expected.to_string(),
        _ => String::new(),
    };
    let want = match expected {
        Schedule::Refused(number) => (u32::from(*number), 0),
        _ if sheet.len() <= room => (0, sheet.len()),
        _ => (11, 0),
    };
    let text = if want.0 == 0 { sheet.as_bytes() } else { b"" };
    if got != want {
        return Some(format!("in {room}: number and length {got:?}, the oracle's {want:?}"));
    }
    if &buffer[..text.len()] != text {
        return Some(format!("in {room}: the sheet differs"));
    }
    if buffer[text.len()..].iter().any(|&byte| byte != UNTOUCHED) {
        return Some(format!("in {room}: a byte past the length is changed"));
    }
    None
}

/// Plans whose text the oracle does not write to its end are left out: their sheets are those of the second opinion.
fn compare(plans: &[Vec<u8>]) -> bool {
    let (mut answers, mut clean, mut long, mut different) = (0, 0, 0, 0);
    for plan in plans {
        let expected = schedule(plan);
        if matches!(expected, Schedule::TooLong) {
            long += 1;
            continue;
        }
        clean += usize::from(matches!(&expected, Schedule::Faults(faults) if faults.is_empty()));
        let length = expected.to_string().len();
        for room in [0, length - 1, length, length + 1, SHEET] {
            answers += 1;
            if let Some(fault) = fault(plan, room, &expected) {
                different += 1;
                if different <= 5 {
                    println!("{fault}; the plan:\n{}", String::from_utf8_lossy(plan));
                }
            }
        }
    }
    println!("{} plans, {clean} without a fault, {long} with texts too long; {answers} answers compared, {different} differ", plans.len());
    different == 0 && answers > 0
}

/// A frame for each plan.
fn check(plans: &[Vec<u8>]) -> bool {
    let mut out = vec![0; SHEET];
    for plan in plans {
        let (number, length) = ours(rizhavel_schedule, plan, &mut out);
        let printed = match number {
            0 => String::from_utf8_lossy(&out[..length]).into_owned(),
            _ => format!("refused {number}\n"),
        };
        print!("{}\n{printed}", printed.len());
    }
    true
}

/// What callgrind counts of the check, of the whole answer, and of reading and judging alone.
#[unsafe(no_mangle)]
#[inline(never)]
fn side_entry(entry: Entry, plan: &[u8], out: &mut [u8]) -> (u32, usize) {
    black_box(ours(entry, black_box(plan), out))
}

#[unsafe(no_mangle)]
#[inline(never)]
fn side_refusal(plan: &[u8]) -> u32 {
    black_box(unsafe { rizhavel_refusal(black_box(plan).as_ptr(), plan.len()) })
}

/// Calls each once on each plan, and prints the plan's name and the lengths of plan and sheet.
fn count(names: impl Iterator<Item = String>, plans: &[Vec<u8>]) -> bool {
    let mut out = vec![0; 1 << 24];
    println!("{:<14} {:>10} {:>11}", "plan", "plan bytes", "sheet bytes");
    for (name, plan) in names.zip(plans) {
        let (number, length) = side_entry(rizhavel_schedule, plan, &mut out);
        counted();
        side_refusal(plan);
        counted();
        side_entry(rizhavel_whole, plan, &mut out);
        counted();
        if number != 0 {
            println!("{name}: refused {number}");
            return false;
        }
        println!("{name:<14} {:10} {length:11}", plan.len());
    }
    true
}

/// The least time of some calls, of the check and of reading and judging alone.
fn time(names: impl Iterator<Item = String>, plans: &[Vec<u8>]) -> bool {
    let mut out = vec![0; SHEET];
    println!("{:<14} {:>10} {:>11} {:>12} {:>12}", "plan", "plan bytes", "sheet bytes", "check", "refusals");
    for (name, plan) in names.zip(plans) {
        let (mut least, mut refusals, mut length) = (f64::MAX, f64::MAX, 0);
        for _ in 0..ROUNDS {
            let start = Instant::now();
            length = ours(rizhavel_schedule, black_box(plan), &mut out).1;
            least = least.min(start.elapsed().as_nanos() as f64 / 1000.0);
            let start = Instant::now();
            side_refusal(plan);
            refusals = refusals.min(start.elapsed().as_nanos() as f64 / 1000.0);
        }
        println!("{name:<14} {:10} {length:11} {least:9.1} us {refusals:9.1} us", plan.len());
    }
    true
}

fn main() -> ExitCode {
    let names = std::env::args().skip(2);
    let good = match std::env::args().nth(1).as_deref() {
        Some("compare") => compare(&frames::frames()),
        Some("check") => check(&frames::frames()),
        Some("count") => count(names, &frames::frames()),
        Some("time") => time(names, &frames::frames()),
        _ => {
            eprintln!("usage: schedule compare|check|count NAME..|time NAME.. < FRAMES");
            return ExitCode::from(2);
        }
    };
    if good { ExitCode::SUCCESS } else { ExitCode::FAILURE }
}
