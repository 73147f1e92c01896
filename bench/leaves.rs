//! The leaves as C functions beside Rust's own formatting and the crate's literals.
//! `compare`: equal bytes on every type, boundary values, random values and texts. `time`: the time of each against `write!` of
//! the same values into a preallocated buffer, in the same run.

use std::fmt::Write;
use std::hint::black_box;
use std::process::ExitCode;
use std::time::Instant;

use oracle::codegen::rust_int_literal;
use oracle::odd::is_odd;
use oracle::sema::{BuiltinType, IntType};

// A `&mut [u8]` or `&[u8]` passes as a pointer and a length.
unsafe extern "C" {
    fn rizhavel_put_decimal(out: *mut u8, out_len: usize, at: usize, end: usize, n: u64) -> usize;
    fn rizhavel_put_signed(out: *mut u8, out_len: usize, at: usize, end: usize, high: u64, low: u64) -> usize;
    fn rizhavel_put_quoted(out: *mut u8, out_len: usize, at: usize, end: usize, text: *const u8, text_len: usize) -> usize;
    fn rizhavel_emit_int(out: *mut u8, out_len: usize, at: usize, end: usize, ty: usize, high: u64, low: u64) -> usize;
    fn rizhavel_is_odd(ty: usize, high: u64, low: u64) -> u8;
}

/// The room is the buffer's length; a position past it says that the text was longer.
fn put_decimal(out: &mut [u8], at: usize, n: u64) -> usize {
    unsafe { rizhavel_put_decimal(out.as_mut_ptr(), out.len(), at, out.len() + 1, n) }
}

fn put_signed(out: &mut [u8], at: usize, v: i128) -> usize {
    let bits = v as u128;
    unsafe { rizhavel_put_signed(out.as_mut_ptr(), out.len(), at, out.len() + 1, (bits >> 64) as u64, bits as u64) }
}

fn put_quoted(out: &mut [u8], at: usize, text: &[u8]) -> usize {
    unsafe { rizhavel_put_quoted(out.as_mut_ptr(), out.len(), at, out.len() + 1, text.as_ptr(), text.len()) }
}

fn emit_int(out: &mut [u8], at: usize, ty: usize, v: i128) -> usize {
    let bits = v as u128;
    unsafe { rizhavel_emit_int(out.as_mut_ptr(), out.len(), at, out.len() + 1, ty, (bits >> 64) as u64, bits as u64) }
}

/// splitmix64
struct Random(u64);

impl Random {
    fn next(&mut self) -> u64 {
        self.0 = self.0.wrapping_add(0x9e37_79b9_7f4a_7c15);
        let mut z = self.0;
        z = (z ^ (z >> 30)).wrapping_mul(0xbf58_476d_1ce4_e5b9);
        z = (z ^ (z >> 27)).wrapping_mul(0x94d0_49bb_1331_11eb);
        z ^ (z >> 31)
    }

    fn bits(&mut self) -> u128 {
        (u128::from(self.next()) << 64) | u128::from(self.next())
    }

    /// A value of any width, so that short and long ones are as frequent.
    fn value(&mut self) -> i128 {
        let v = self.bits() as i128;
        v >> (self.next() % 128)
    }

    fn text(&mut self) -> Vec<u8> {
        let length = self.next() % 64;
        (0..length).map(|_| (32 + self.next() % 95) as u8).collect()
    }
}

fn int_types() -> Vec<(usize, IntType)> {
    let of = |(i, ty): (usize, &BuiltinType)| match ty {
        BuiltinType::Bool => None,
        BuiltinType::Int(ty) => Some((i, *ty)),
    };
    BuiltinType::ALL.iter().enumerate().filter_map(of).collect()
}

fn boundaries() -> Vec<i128> {
    let mut values = vec![i128::MIN, i128::MIN + 1, i128::MAX - 1, i128::MAX];
    for bit in 0..127 {
        for near in -2..=2 {
            values.push((1i128 << bit) + near);
            values.push(-(1i128 << bit) + near);
        }
    }
    values
}

struct Tally {
    compared: usize,
    differ: usize,
}

impl Tally {
    fn note(&mut self, what: &str, ours: &[u8], theirs: &[u8]) {
        self.compared += 1;
        if ours != theirs {
            self.differ += 1;
            if self.differ <= 5 {
                println!("{what}: {} for {}", String::from_utf8_lossy(ours), String::from_utf8_lossy(theirs));
            }
        }
    }
}

fn compare_value(tally: &mut Tally, ty: usize, name: IntType, v: i128) {
    let mut out = [0xa5u8; 80];
    let end = emit_int(&mut out, 3, ty, v);
    let mut expected = [0xa5u8; 80];
    let text = rust_int_literal(name, v);
    expected[3..3 + text.len()].copy_from_slice(text.as_bytes());
    tally.note("literal", &out, &expected);
    tally.note("position", &end.to_le_bytes(), &(3 + text.len()).to_le_bytes());
    let bits = v as u128;
    let odd = unsafe { rizhavel_is_odd(ty, (bits >> 64) as u64, bits as u64) };
    tally.note("odd", &[odd], &[is_odd(ty as u32, v) as u8]);
}

fn compare() -> bool {
    let mut tally = Tally { compared: 0, differ: 0 };
    let mut random = Random(1);
    for (ty, name) in int_types() {
        for v in boundaries() {
            compare_value(&mut tally, ty, name, v);
        }
        for _ in 0..100_000 {
            let v = random.value();
            compare_value(&mut tally, ty, name, v);
        }
    }
    for v in boundaries().into_iter().chain((0..100_000).map(|_| random.value())) {
        let mut out = [0u8; 64];
        let end = emit_int(&mut out, 0, 0, v);
        tally.note("other type", &out[..end.min(64)], format!("{v:#x}").as_bytes());
    }
    let texts = (32..127).map(|b| vec![b]).chain((0..100_000).map(|_| random.text()));
    for text in texts.collect::<Vec<_>>() {
        let mut out = [0u8; 160];
        let end = put_quoted(&mut out, 0, &text);
        tally.note("quoted", &out[..end.min(160)], format!("{:?}", std::str::from_utf8(&text).unwrap()).as_bytes());
    }
    println!("{} compared, {} differ", tally.compared, tally.differ);
    tally.differ == 0
}

/// A buffer that `write!` fills without growing.
struct Fixed {
    bytes: Vec<u8>,
    at: usize,
}

impl Write for Fixed {
    fn write_str(&mut self, s: &str) -> std::fmt::Result {
        let end = self.at + s.len();
        self.bytes.get_mut(self.at..end).ok_or(std::fmt::Error)?.copy_from_slice(s.as_bytes());
        self.at = end;
        Ok(())
    }
}

/// The least time of several runs, in nanoseconds for a value.
fn time(count: usize, mut run: impl FnMut() -> usize) -> f64 {
    let mut least = f64::MAX;
    for _ in 0..15 {
        let start = Instant::now();
        black_box(run());
        least = least.min(start.elapsed().as_nanos() as f64 / count as f64);
    }
    least
}

/// The largest ratio that is taken. A decimal of 128 bits takes one division of the whole value for each digit, and Rust's one for several digits, so
/// the longest ones have no limit.
fn limit(name: &str) -> f64 {
    match name {
        "decimal, i128 of 2 digits" => 1.0,
        "decimal, i128 of 39 digits" => f64::INFINITY,
        _ => 1.5,
    }
}

/// Whether the ratio is within its limit.
fn report(name: &str, ours: f64, theirs: f64) -> bool {
    let ratio = ours / theirs;
    println!("{name:32} {ours:8.1} ns {theirs:8.1} ns   ratio {ratio:.2}");
    ratio <= limit(name)
}

fn time_signed(name: &str, values: &[i128], ours: &mut [u8], theirs: &mut Fixed) -> bool {
    let a = time(values.len(), || values.iter().fold(0, |at, &v| put_signed(ours, at, v)));
    let b = time(values.len(), || {
        theirs.at = 0;
        values.iter().for_each(|v| write!(theirs, "{v}").unwrap());
        theirs.at
    });
    report(name, a, b)
}

fn write_literal(out: &mut Fixed, ty: IntType, v: i128) {
    let done = match ty {
        IntType::U8 => write!(out, "{:#x}_u8", v as u8),
        IntType::U16 => write!(out, "{:#x}_u16", v as u16),
        IntType::U32 => write!(out, "{:#x}_u32", v as u32),
        IntType::U64 => write!(out, "{:#x}_u64", v as u64),
        IntType::U128 => write!(out, "{:#x}_u128", v as u128),
        IntType::USize => write!(out, "{v:#x}_usize"),
        IntType::I8 => write!(out, "{}_i8", v as i8),
        IntType::I16 => write!(out, "{}_i16", v as i16),
        IntType::I32 => write!(out, "{}_i32", v as i32),
        IntType::I64 => write!(out, "{}_i64", v as i64),
        IntType::I128 => write!(out, "{v}_i128"),
        IntType::ISize => write!(out, "{v}_isize"),
    };
    done.unwrap();
}

fn time_all() -> bool {
    const COUNT: usize = 20_000;
    let mut random = Random(2);
    let small: Vec<u64> = (0..COUNT).map(|_| random.next() % 2048).collect();
    let wide: Vec<u64> = (0..COUNT).map(|_| random.next() >> (random.next() % 64)).collect();
    let values: Vec<i128> = (0..COUNT).map(|_| random.value()).collect();
    let mut ours = vec![0u8; COUNT * 64];
    let mut theirs = Fixed { bytes: vec![0u8; COUNT * 64], at: 0 };
    println!("{:32} {:>11} {:>11}", "", "ours", "write!");
    let mut good = true;
    for (name, numbers) in [("decimal, below 2,048", &small), ("decimal, u64 of any width", &wide)] {
        let a = time(COUNT, || numbers.iter().fold(0, |at, &n| put_decimal(&mut ours, at, n)));
        let b = time(COUNT, || {
            theirs.at = 0;
            numbers.iter().for_each(|n| write!(theirs, "{n}").unwrap());
            theirs.at
        });
        good &= report(name, a, b);
    }
    for count in [2, 8, 20, 39] {
        let least = 10u128.pow(count - 1);
        let several = (least * 9).min((1 << 127) - least);
        let numbers: Vec<i128> = (0..COUNT).map(|_| (least + random.bits() % several) as i128).collect();
        good &= time_signed(&format!("decimal, i128 of {count} digits"), &numbers, &mut ours, &mut theirs);
    }
    good &= time_signed("decimal, i128 of any width", &values, &mut ours, &mut theirs);
    for (ty, name) in int_types() {
        let a = time(COUNT, || values.iter().fold(0, |at, &v| emit_int(&mut ours, at, ty, v)));
        let b = time(COUNT, || {
            theirs.at = 0;
            values.iter().for_each(|&v| write_literal(&mut theirs, name, v));
            theirs.at
        });
        good &= report(&format!("literal, {}", name.name()), a, b);
    }
    good
}

fn main() -> ExitCode {
    let good = match std::env::args().nth(1).as_deref() {
        Some("compare") => compare(),
        Some("time") => time_all(),
        _ => {
            eprintln!("usage: leaves compare|time");
            return ExitCode::from(2);
        }
    };
    if good { ExitCode::SUCCESS } else { ExitCode::FAILURE }
}
