//! Counts what codegen.rs writes, by the line of each `write!`, `writeln!` and `format!` in it.
//! Only the library that `oracle/generate --coverage` runs with has this module; there the macros
//! below stand in codegen.rs for those of the standard library.

use std::sync::OnceLock;
use std::sync::atomic::{AtomicU64, Ordering};

/// The copy of codegen.rs that is compiled: its line numbers are the published file's.
const SOURCE: &str = include_str!("../../target/oracle/coverage/isle/codegen.rs");

macro_rules! counted_write {
    ($out:expr, $($arg:tt)*) => {{
        let text = ::std::format!($($arg)*);
        $crate::coverage::wrote(line!(), &text);
        ::std::write!($out, "{text}")
    }};
}

macro_rules! counted_writeln {
    ($out:expr $(,)?) => {{
        $crate::coverage::wrote(line!(), "");
        ::std::writeln!($out)
    }};
    ($out:expr, $($arg:tt)*) => {{
        let text = ::std::format!($($arg)*);
        $crate::coverage::wrote(line!(), &text);
        ::std::writeln!($out, "{text}")
    }};
}

macro_rules! counted_format {
    ($($arg:tt)*) => {{
        let text = ::std::format!($($arg)*);
        $crate::coverage::wrote(line!(), &text);
        text
    }};
}

pub(crate) use counted_format as format;
pub(crate) use counted_write as write;
pub(crate) use counted_writeln as writeln;

/// One of the texts that a line of codegen.rs can choose between.
struct Choice {
    /// A part of the macro's arguments; every macro that has it is counted by itself.
    code: &'static str,
    text: &'static str,
    holds: fn(&str) -> bool,
}

const fn choice(code: &'static str, text: &'static str, holds: fn(&str) -> bool) -> Choice {
    Choice { code, text, holds }
}

const COPY: &str = "#[derive(Copy, Clone, PartialEq, Eq{debug_derive})]";
const CLONE: &str = "#[derive(Clone{debug_derive})]";
const SIGNATURE: &str = "{indent}fn {name}(&mut self, {params}) -> {ret_ty};";
const RESULTS: &str = "{open_paren}{rets}{close_paren}";
const DEFAULT: &str = "{}let mut v{} = {}::default();";
const LAST_LINE: &str = "\"{}{}\", &self.indent, last_line";
const OVERFLOW: &str = "{}if returns.len() >= MAX_ISLE_RETURNS {{ {} }}";
const CLOSURE_END: &str = "{})() {{ {} }} // __isle_arm_{}";
const LOG: &str = "log::debug!(";
const UNREACHABLE: &str = "unreachable!(\\\"no rule";
const LITERAL: &str = "\"{}\", rust_int_literal";

static CHOICES: &[Choice] = &[
    choice(RESULTS, "()", |text| text == "()"),
    choice(RESULTS, "one type", |text| !text.starts_with('(')),
    choice(RESULTS, "several types", |text| {
        text.starts_with('(') && text.contains(", ")
    }),
    choice(SIGNATURE, "no parameter", |text| {
        text.contains("(&mut self, )")
    }),
    choice(SIGNATURE, "one parameter", |text| {
        text.matches("arg").count() == 1
    }),
    choice(SIGNATURE, "several parameters", |text| {
        text.contains("arg1: ")
    }),
    choice(SIGNATURE, "Option", |text| text.contains("-> Option<")),
    choice("\"arg{}: {}\"", "&", |text| text.contains(": &")),
    choice("\"arg{}: {}\"", "no &", |text| !text.contains(": &")),
    choice(COPY, "Debug", |text| text.contains(", Debug")),
    choice(COPY, "no Debug", |text| !text.contains(", Debug")),
    choice(CLONE, "Debug", |text| text.contains(", Debug")),
    choice(CLONE, "no Debug", |text| !text.contains(", Debug")),
    choice("{_pub}{name}: {ty_name}", "pub", |text| {
        text.trim_start().starts_with("pub ")
    }),
    choice("{_pub}{name}: {ty_name}", "no pub", |text| {
        !text.trim_start().starts_with("pub ")
    }),
    choice("\"{_pub}{ty_name}\"", "pub", |text| {
        text.starts_with("pub ")
    }),
    choice("\"{_pub}{ty_name}\"", "no pub", |text| {
        !text.starts_with("pub ")
    }),
    choice("\"{}{}\", r, ", "&", |text| text.starts_with('&')),
    choice("\"{}{}\", r, ", "no &", |text| !text.starts_with('&')),
    choice("{}pub fn {}<C: Context>(", "internal", |text| {
        text.contains("pub fn constructor_")
    }),
    choice("{}pub fn {}<C: Context>(", "external", |text| {
        !text.contains("pub fn constructor_")
    }),
    choice("if is_ref { \"&\" } else { \"\" }, ty", "&", |text| {
        text.starts_with('&')
    }),
    choice("if is_ref { \"&\" } else { \"\" }, ty", "no &", |text| {
        !text.starts_with('&')
    }),
    choice(LAST_LINE, "None", |text| text.trim_start() == "None"),
    choice(LAST_LINE, "unreachable!", |text| {
        text.trim_start().starts_with("unreachable!")
    }),
    choice(LAST_LINE, "_ => {}", |text| text.trim_start() == "_ => {}"),
    choice(LAST_LINE, "false", |text| text.trim_start() == "false"),
    choice(UNREACHABLE, "\\\" in a text", |text| text.contains("\\\"")),
    choice(UNREACHABLE, "\\\\ in a text", |text| text.contains("\\\\")),
    choice(LOG, "\\\" in a text", |text| text.contains("\\\"")),
    choice(LOG, "\\\\ in a text", |text| text.contains("\\\\")),
    choice(DEFAULT, "external", |text| text.contains(" = C::")),
    choice(DEFAULT, "internal", |text| {
        text.contains(" = ContextIterWrapper::")
    }),
    choice(OVERFLOW, "return;", |text| text.ends_with("{ return; }")),
    choice(OVERFLOW, "return true;", |text| {
        text.ends_with("{ return true; }")
    }),
    choice(CLOSURE_END, "return;", |text| text.contains("{ return; }")),
    choice(CLOSURE_END, "return true;", |text| {
        text.contains("{ return true; }")
    }),
    choice(CLOSURE_END, "number 10 or above", |text| {
        text.rsplit('_')
            .next()
            .is_some_and(|number| number.len() > 1)
    }),
    choice("\"{}(ctx\"", "external", |text| text.starts_with("C::")),
    choice("\"{}(ctx\"", "internal constructor", |text| {
        text.starts_with("constructor_")
    }),
    choice("\"{}(ctx\"", "internal extractor", |text| {
        text.starts_with("extractor_")
    }),
    choice("\"{before}\"", "&", |text| text == "&"),
    choice("\"{before}\"", "nothing", |text| text.is_empty()),
    choice("\"{after}\"", ".clone()", |text| text == ".clone()"),
    choice("\"{after}\"", "nothing", |text| text.is_empty()),
    choice("\"{val}\"", "true", |text| text == "true"),
    choice("\"{val}\"", "false", |text| text == "false"),
    choice("\"{val:#x}\"", "0", |text| text == "0x0"),
    choice("\"{val:#x}\"", "negative", |text| text.len() == 34),
    choice(LITERAL, "negative", |text| text.starts_with('-')),
    choice("{:#x}_u8", "0", |text| text == "0x0_u8"),
    choice("{:#x}_u8", "greatest", |text| text == "0xff_u8"),
    choice("{:#x}_u16", "0", |text| text == "0x0_u16"),
    choice("{:#x}_u16", "greatest", |text| text == "0xffff_u16"),
    choice("{:#x}_u32", "0", |text| text == "0x0_u32"),
    choice("{:#x}_u32", "greatest", |text| text == "0xffffffff_u32"),
    choice("{:#x}_u64", "0", |text| text == "0x0_u64"),
    choice("{:#x}_u64", "greatest", |text| {
        text == "0xffffffffffffffff_u64"
    }),
    choice("{:#x}_u128", "0", |text| text == "0x0_u128"),
    choice("{:#x}_u128", "greatest", |text| {
        text == "0xffffffffffffffffffffffffffffffff_u128"
    }),
    choice("{val:#x}_usize", "negative", |text| text.len() == 40),
    choice("{val:#x}_usize", "greatest", |text| {
        text == "0xffffffffffffffff_usize"
    }),
    choice("{val:#x}_usize", "one beyond", |text| {
        text == "0x10000000000000000_usize"
    }),
    choice("{}_i8", "least", |text| text == "-128_i8"),
    choice("{}_i8", "greatest", |text| text == "127_i8"),
    choice("{}_i16", "least", |text| text == "-32768_i16"),
    choice("{}_i16", "greatest", |text| text == "32767_i16"),
    choice("{}_i32", "least", |text| text == "-2147483648_i32"),
    choice("{}_i32", "greatest", |text| text == "2147483647_i32"),
    choice("{}_i64", "least", |text| text == "-9223372036854775808_i64"),
    choice("{}_i64", "greatest", |text| {
        text == "9223372036854775807_i64"
    }),
    choice("{val}_i128", "least", |text| {
        text == "-170141183460469231731687303715884105728_i128"
    }),
    choice("{val}_i128", "greatest", |text| {
        text == "170141183460469231731687303715884105727_i128"
    }),
    choice("{val}_isize", "least", |text| {
        text == "-9223372036854775808_isize"
    }),
    choice("{val}_isize", "one below", |text| {
        text == "-9223372036854775809_isize"
    }),
    choice("{val}_isize", "one beyond", |text| {
        text == "9223372036854775808_isize"
    }),
];

/// A line with its count, and one of its choices if it is not counted as a whole.
pub struct Counted {
    pub line: usize,
    /// The line as it stands in codegen.rs.
    pub code: &'static str,
    pub text: Option<&'static str>,
    pub hits: u64,
}

struct Line {
    number: usize,
    code: &'static str,
    hits: AtomicU64,
    /// The line's choices, by their place in `CHOICES`.
    choices: Vec<(usize, AtomicU64)>,
}

fn is_macro(code: &str) -> bool {
    let code = code.trim_start();
    let names = ["write!(", "writeln!(", "format!("];
    !code.starts_with("//") && names.iter().any(|name| code.contains(name))
}

/// The lines with a macro; a choice belongs to the last of them that begins before its code ends.
fn lines() -> &'static [Line] {
    static LINES: OnceLock<Vec<Line>> = OnceLock::new();
    LINES.get_or_init(|| {
        let mut lines: Vec<Line> = Vec::new();
        for (index, code) in SOURCE.lines().enumerate() {
            if is_macro(code) {
                let (number, hits, choices) = (index + 1, AtomicU64::new(0), Vec::new());
                lines.push(Line {
                    number,
                    code: code.trim(),
                    hits,
                    choices,
                });
            }
            let Some(line) = lines.last_mut() else {
                continue;
            };
            for (at, choice) in CHOICES.iter().enumerate() {
                if code.contains(choice.code) {
                    line.choices.push((at, AtomicU64::new(0)));
                }
            }
        }
        lines
    })
}

/// Counts a text written by the macro on line `number`.
pub fn wrote(number: u32, text: &str) {
    let lines = lines();
    let at = lines.partition_point(|line| line.number < number as usize);
    let line = &lines[at];
    assert_eq!(
        line.number, number as usize,
        "a macro on a line that has none"
    );
    line.hits.fetch_add(1, Ordering::Relaxed);
    for (choice, hits) in &line.choices {
        if (CHOICES[*choice].holds)(text) {
            hits.fetch_add(1, Ordering::Relaxed);
        }
    }
}

/// Every line that can write and every choice of one, with its count, in the file's order.
pub fn counted() -> Vec<Counted> {
    let mut counted = Vec::new();
    for line in lines() {
        let one = |text, hits: &AtomicU64| Counted {
            line: line.number,
            code: line.code,
            text,
            hits: hits.load(Ordering::Relaxed),
        };
        counted.push(one(None, &line.hits));
        counted.extend(
            line.choices
                .iter()
                .map(|(at, hits)| one(Some(CHOICES[*at].text), hits)),
        );
    }
    counted
}

/// Choices whose code stands on no line of codegen.rs: their part of the report would be empty.
pub fn choices_without_line() -> Vec<&'static str> {
    let found = |at: usize| {
        lines()
            .iter()
            .any(|line| line.choices.iter().any(|(c, _)| *c == at))
    };
    (0..CHOICES.len())
        .filter(|&at| !found(at))
        .map(|at| CHOICES[at].code)
        .collect()
}
