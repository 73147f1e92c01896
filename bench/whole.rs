//! The proved emitter's C entries beside the crate, on plans in frames on standard input.
//! `compare` holds number, length, count and every byte against the crate's, in rooms around the text's length; `time` and
//! `time-items` print the time of both on the same plans, in the same run; `count` and `explode` call what callgrind counts
//! (count.py); `random` judges short inputs.

use std::hint::black_box;
use std::process::ExitCode;
use std::sync::mpsc::{Receiver, sync_channel};
use std::time::Instant;

use oracle::answer::{self, Answer, answer, with_large_stack};
use oracle::codegen::{Codegen, codegen};
use oracle::environment::Environment;
use oracle::plan::Plan;

mod counted;
mod frames;

use counted::counted;

/// Which text is asked for.
#[derive(Clone, Copy, Debug, PartialEq, Eq)]
enum Form {
    Whole,
    Terms,
    /// What stands before the terms.
    Items,
}

const FORMS: [Form; 3] = [Form::Whole, Form::Terms, Form::Items];

type Entry = unsafe extern "C" fn(*const u8, usize, *mut u8, usize, *mut usize, usize) -> u32;

unsafe extern "C" {
    fn rizhavel_whole(plan: *const u8, plan_len: usize, out: *mut u8, out_len: usize, answer: *mut usize, answer_len: usize) -> u32;
    fn rizhavel_items(plan: *const u8, plan_len: usize, out: *mut u8, out_len: usize, answer: *mut usize, answer_len: usize) -> u32;
    fn rizhavel_terms(plan: *const u8, plan_len: usize, out: *mut u8, out_len: usize, answer: *mut usize, answer_len: usize) -> u32;
}

/// Number, length and count.
fn ours(form: Form, plan: &[u8], out: &mut [u8]) -> (u32, usize, usize) {
    let entry: Entry = match form {
        Form::Whole => rizhavel_whole,
        Form::Terms => rizhavel_terms,
        Form::Items => rizhavel_items,
    };
    let mut answer = [0usize; 2];
    let number = unsafe { entry(plan.as_ptr(), plan.len(), out.as_mut_ptr(), out.len(), answer.as_mut_ptr(), answer.len()) };
    (number, answer[0], answer[1])
}

/// What a buffer's bytes are before a call, there and past its end.
const UNTOUCHED: u8 = 0xa5;
const BEYOND: usize = 64;

/// How often both are timed in turn.
const ROUNDS: usize = 8;

/// The room that the programs have.
const ROOM: usize = 65536;

/// The rooms that a text beyond any memory is measured in.
const ROOMS: [usize; 9] = [0, 8 << 10, 16 << 10, 32 << 10, 64 << 10, 128 << 10, 256 << 10, 512 << 10, 1 << 20];

/// The crate's header, trait and types.
fn items(env: &Environment) -> String {
    let mut text = String::new();
    let codegen = Codegen::compile(env.files.clone(), &env.typeenv, &env.termenv, &env.terms);
    codegen.generate_header(&mut text, &env.options);
    codegen.generate_ctx_trait(&mut text);
    codegen.generate_internal_types(&mut text);
    text
}

/// The crate's answer in a room of `longest`.
fn theirs(form: Form, plan: &[u8], longest: usize) -> Answer {
    match form {
        Form::Whole => answer(plan, answer::Form::Whole, longest),
        Form::Terms => answer(plan, answer::Form::Terms, longest),
        Form::Items => {
            let (number, text) = match Plan::read(plan) {
                Err(number) => (number, String::new()),
                Ok(plan) => match items(&Environment::of(&plan)) {
                    text if text.len() > longest => (11, String::new()),
                    text => (0, text),
                },
            };
            Answer { number, length: text.len(), count: 0, text }
        }
    }
}

/// What is wrong with our answer in a room, if anything.
fn fault(form: Form, plan: &[u8], room: usize, expected: &Answer) -> Option<String> {
    let mut buffer = vec![UNTOUCHED; room + BEYOND];
    let got = ours(form, plan, &mut buffer[..room]);
    let fits = expected.number == 0 && expected.length <= room;
    let want = match expected.number {
        0 if fits => (0, expected.length, expected.count as usize),
        0 => (11, 0, 0),
        number => (u32::from(number), 0, 0),
    };
    let text = if fits { expected.text.as_bytes() } else { b"" };
    if got != want {
        return Some(format!("{form:?} in {room}: number, length, count {got:?}, the crate's {want:?}"));
    }
    if &buffer[..text.len()] != text {
        let at = buffer.iter().zip(text).position(|(a, b)| a != b).unwrap_or(0);
        return Some(format!("{form:?} in {room}: byte {at} differs"));
    }
    if buffer[text.len()..].iter().any(|&byte| byte != UNTOUCHED) {
        return Some(format!("{form:?} in {room}: a byte past the length is changed"));
    }
    None
}

/// The least room and that of the programs; around a text's length; and the room of the crate's answer, for what is longer than `ROOM`.
fn rooms(expected: &Answer, longest: usize) -> Vec<usize> {
    let n = expected.length;
    let mut rooms = vec![0, ROOM];
    if n > 0 {
        rooms.extend([n - 1, n, n + 1]);
    }
    if n > ROOM || expected.number == 11 {
        rooms.push(longest);
    }
    rooms.sort();
    rooms.dedup();
    rooms
}

/// How many answers of ours were compared, how many texts longer than `ROOM` were among them, and how many answers differ.
#[derive(Default)]
struct Compared {
    answers: usize,
    long: usize,
    different: usize,
}

/// Takes plans with the crate's answers in a room of `longest`.
fn compare_each(work: Receiver<(Vec<u8>, Form, Answer)>, longest: usize) -> Compared {
    let mut compared = Compared::default();
    for (plan, form, expected) in work {
        compared.long += usize::from(expected.length > ROOM);
        for room in rooms(&expected, longest) {
            compared.answers += 1;
            if let Some(fault) = fault(form, &plan, room, &expected) {
                compared.different += 1;
                if compared.different <= 5 {
                    println!("{fault}; the plan:\n{}", String::from_utf8_lossy(&plan));
                }
            }
        }
    }
    compared
}

/// Our side runs on a thread with the stack that Rust gives its threads. What is longer than `longest` has no text to compare: ours
/// is refused there too. So many texts longer than `ROOM` must be among those compared.
fn compare(plans: Vec<Vec<u8>>, longest: usize, least: usize) -> bool {
    let count = plans.len();
    let (sender, receiver) = sync_channel(64);
    let ours = move || compare_each(receiver, longest);
    let thread = std::thread::Builder::new().stack_size(2 << 20).spawn(ours).expect("a thread");
    with_large_stack(move || {
        for plan in plans {
            for form in FORMS {
                let expected = theirs(form, &plan, longest);
                if sender.send((plan.clone(), form, expected)).is_err() {
                    return;
                }
            }
        }
    });
    let Compared { answers, long, different } = thread.join().expect("our side");
    println!("{count} plans, {answers} answers compared, {long} texts longer than {ROOM} bytes, {different} differ");
    different == 0 && long >= least
}

/// The least time of many runs, in microseconds: as many as take a twentieth of a second, three at least. Each run returns its own time.
fn least(mut run: impl FnMut() -> f64) -> f64 {
    let start = Instant::now();
    let mut least = f64::MAX;
    let mut runs = 0;
    while runs < 3 || start.elapsed().as_millis() < 50 {
        least = least.min(run());
        runs += 1;
    }
    least
}

fn time_ours(form: Form, plan: &[u8], out: &mut [u8]) -> f64 {
    least(|| {
        let start = Instant::now();
        black_box(ours(form, black_box(plan), out));
        start.elapsed().as_nanos() as f64 / 1000.0
    })
}

/// The crate's `codegen` from its environments, which are made before the clock starts.
fn time_crate(form: Form, plan: &Plan) -> f64 {
    least(|| {
        let env = Environment::of(plan);
        let start = Instant::now();
        black_box(match form {
            Form::Items => items(&env),
            _ => codegen(env.files.clone(), &env.typeenv, &env.termenv, &env.terms, &env.options),
        });
        start.elapsed().as_nanos() as f64 / 1000.0
    })
}

fn time_all(form: Form, plans: &[Vec<u8>]) -> bool {
    let mut worst: f64 = 0.0;
    let mut out = vec![0; 1 << 24];
    println!("{:>10} {:>10} {:>12} {:>12}   ratio", "plan bytes", "text bytes", "ours", "crate");
    for plan in plans {
        let (number, length, _) = ours(form, plan, &mut out);
        if number != 0 {
            println!("{:10} refused {number}", plan.len());
            continue;
        }
        let (mut a, mut b) = (f64::MAX, f64::MAX);
        for _ in 0..ROUNDS {
            a = a.min(time_ours(form, plan, &mut out));
            b = b.min(with_large_stack(|| time_crate(form, &Plan::read(plan).expect("an accepted plan"))));
        }
        worst = worst.max(a / b);
        println!("{:10} {length:10} {a:9.1} us {b:9.1} us   {:.2}", plan.len(), a / b);
    }
    println!("worst ratio {worst:.2}");
    worst <= 2.0
}

/// Each plan in rooms that hold its text and that don't, on a thread that has this much stack.
fn run(plans: Vec<Vec<u8>>, kib: usize) -> bool {
    let each = move || {
        let mut out = vec![UNTOUCHED; 1 << 24];
        let mut good = true;
        for plan in plans {
            let (number, length, _) = ours(Form::Whole, &plan, &mut out);
            let (short, _, _) = ours(Form::Whole, &plan, &mut out[..length.saturating_sub(1)]);
            println!("plan of {} bytes: number {number}, text of {length} bytes", plan.len());
            good &= number == 0 && short == 11;
        }
        good
    };
    std::thread::Builder::new().stack_size(kib << 10).spawn(each).expect("a thread").join().expect("our side")
}

/// What callgrind counts of our side.
#[unsafe(no_mangle)]
#[inline(never)]
fn side_ours(form: Form, plan: &[u8], out: &mut [u8]) -> (u32, usize, usize) {
    black_box(ours(form, black_box(plan), out))
}

/// What it counts of the crate: `codegen` from its environments.
#[unsafe(no_mangle)]
#[inline(never)]
fn side_theirs(env: &Environment) -> String {
    black_box(codegen(env.files.clone(), &env.typeenv, &env.termenv, &env.terms, &env.options))
}

/// Calls each side once on each plan, ours first, and prints the plan's name and the lengths of plan and text.
fn count(names: impl Iterator<Item = String>, plans: &[Vec<u8>]) -> bool {
    let mut out = vec![0; 1 << 24];
    println!("{:<12} {:>10} {:>10}", "plan", "plan bytes", "text bytes");
    for (name, plan) in names.zip(plans) {
        let (number, length, _) = side_ours(Form::Whole, plan, &mut out);
        counted();
        if number != 0 {
            println!("{name}: refused {number}");
            return false;
        }
        with_large_stack(|| side_theirs(&Environment::of(&Plan::read(plan).expect("an accepted plan"))));
        counted();
        println!("{name:<12} {:10} {length:10}", plan.len());
    }
    true
}

/// Calls our side on plans whose text is beyond any memory, in rooms that double, and prints the plan's length and the room.
fn explode(plans: &[Vec<u8>]) -> bool {
    println!("{:>10} {:>10}", "plan bytes", "room");
    for plan in plans {
        for room in ROOMS {
            let mut out = vec![UNTOUCHED; room];
            let (number, length, odd) = side_ours(Form::Terms, plan, &mut out);
            counted();
            if (number, length, odd) != (11, 0, 0) || out.iter().any(|&byte| byte != UNTOUCHED) {
                println!("a plan of {} bytes in {room}: number {number}, or a byte is changed", plan.len());
                return false;
            }
            println!("{:10} {room:10}", plan.len());
        }
    }
    true
}

/// Numbers that look random, from a seed (splitmix64).
struct Numbers(u64);

impl Numbers {
    fn below(&mut self, n: usize) -> usize {
        self.0 = self.0.wrapping_add(0x9e37_79b9_7f4a_7c15);
        let mut z = self.0;
        z = (z ^ (z >> 30)).wrapping_mul(0xbf58_476d_1ce4_e5b9);
        z = (z ^ (z >> 27)).wrapping_mul(0x94d0_49bb_1331_11eb);
        ((z ^ (z >> 31)) % n as u64) as usize
    }
}

/// Bytes of any value, bytes that a plan may have, or a part of a plan.
fn short_input(numbers: &mut Numbers, plan: &[u8]) -> Vec<u8> {
    let length = numbers.below(80);
    match numbers.below(3) {
        0 => (0..length).map(|_| numbers.below(256) as u8).collect(),
        1 => (0..length).map(|_| b"\n -0123456789abcdefnopragmas log split threshold"[numbers.below(47)]).collect(),
        _ => {
            let mut part = plan[..numbers.below(plan.len() + 1)].to_vec();
            if !part.is_empty() {
                let at = numbers.below(part.len());
                part[at] = b"\n -0129abz"[numbers.below(9)];
            }
            part
        }
    }
}

/// Short inputs are answered as the oracle's reader answers them.
fn random(plan: &[u8], seed: u64, count: usize) -> bool {
    let mut numbers = Numbers(seed);
    let mut out = vec![UNTOUCHED; ROOM];
    let mut different = 0;
    for _ in 0..count {
        let input = short_input(&mut numbers, plan);
        let number = ours(Form::Whole, &input, &mut out).0;
        if number == 0 {
            out.fill(UNTOUCHED);
        }
        let want = Plan::read(&input).err().map_or(0, u32::from);
        if number != want || out[..256].iter().any(|&byte| byte != UNTOUCHED) {
            different += 1;
            println!("{number}, the oracle's {want}: {:?}", String::from_utf8_lossy(&input));
        }
    }
    println!("{count} short inputs, {different} differ");
    different == 0
}

fn argument(n: usize) -> usize {
    std::env::args().nth(n).and_then(|word| word.parse().ok()).expect("a number")
}

fn main() -> ExitCode {
    let good = match std::env::args().nth(1).as_deref() {
        Some("compare") => compare(frames::frames(), argument(2), argument(3)),
        Some("time") => time_all(Form::Whole, &frames::frames()),
        Some("time-items") => time_all(Form::Items, &frames::frames()),
        Some("run") => run(frames::frames(), argument(2)),
        Some("count") => count(std::env::args().skip(2), &frames::frames()),
        Some("explode") => explode(&frames::frames()),
        Some("random") => random(&frames::frames()[0], argument(2) as u64, argument(3)),
        _ => {
            eprintln!("usage: whole compare LONGEST LEAST|time|time-items|run KIB|count NAME..|explode|random SEED COUNT < FRAMES");
            return ExitCode::from(2);
        }
    };
    if good { ExitCode::SUCCESS } else { ExitCode::FAILURE }
}
