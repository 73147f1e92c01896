//! Tries the oracle: the document's worked case and edges, the limits, and each reading where the
//! document leaves room, numbered as in docs/DECISIONS.md. Most readings are an edit of one accepted
//! plan with the refusal that the edited plan gets, 0 for none.

#[path = "readings/limits.rs"]
mod limits;
#[path = "readings/schedule.rs"]
mod schedule;

use oracle::answer::{Answer, Form, answer, check, with_large_stack};
use oracle::environment::Environment;
use oracle::plan::Plan;
use std::process::exit;

const BUFFER: usize = 65_536;

fn main() {
    let mut tally = Tally::default();
    with_large_stack(|| {
        readings(&mut tally);
        worked(&mut tally);
        literals(&mut tally);
        quoted(&mut tally);
        buffers(&mut tally);
        splits(&mut tally);
        odd_counts(&mut tally);
        limits::limits(&mut tally);
        limits::nesting(&mut tally);
        limits::explosion(&mut tally);
        schedule::cases(&mut tally);
        schedule::sheets(&mut tally);
        schedule::lengths(&mut tally);
    });
    println!("{} held, {} failed", tally.held, tally.failed);
    exit(if tally.failed == 0 { 0 } else { 1 });
}

#[derive(Default)]
pub struct Tally {
    held: usize,
    failed: usize,
}

impl Tally {
    pub fn expect<T: PartialEq + std::fmt::Debug>(&mut self, what: &str, expected: T, got: T) {
        if expected == got {
            self.held += 1;
        } else {
            self.failed += 1;
            println!("{what}: expected {expected:?}, got {got:?}");
        }
    }

    /// The refusal of a plan. An accepted one must also be the text of the crate's own `codegen`.
    pub fn refusal(&mut self, what: &str, expected: u8, plan: &str) {
        self.expect(what, expected, check(plan.as_bytes()).err().unwrap_or(0));
        if expected == 0 {
            let answer = answer(plan.as_bytes(), Form::Whole, BUFFER);
            if answer.number == 0 {
                self.expect(what, by_codegen(plan), answer.text);
            }
            schedule::expect_same_text(self, what, plan);
        }
    }
}

/// The text by the crate's public entry.
fn by_codegen(plan: &str) -> String {
    let plan = Plan::read(plan.as_bytes()).unwrap_or_else(|number| panic!("refused {number}"));
    let env = Environment::of(&plan);
    oracle::codegen::codegen(
        env.files,
        &env.typeenv,
        &env.termenv,
        &env.terms,
        &env.options,
    )
}

/// An accepted plan with each kind of table row but `loop`, which `LOOP` has.
const BASE: &str = "\
nopragmas log split threshold
0 0 0 -

file
a.isle

sym
t
E
A
B
S
f
x
ext

pos
here
there

kind name extern nodebug pos list
prim 6 - - - -
enum 1 0 0 0 -
unit 4 0 0 0 -
named 4 0 0 1 5:1,6:13
tuple 4 0 0 1 1,14

type name shape list
14 2 unit -
14 3 named 5:1
14 3 tuple 1,13

name pos ret multi partial ctor xtor infallible list
0 0 1 0 1 in - 0 1,14
1 0 1 1 0 in 7 1 1
2 0 14 0 0 7 in 0 -

term
0

kind a b list
arg 0 - -
arg 1 - -
int 1 00000000000000000000000000000007 -
some - - 2
bool 1 - -
prim 6 - -
extract 1 - 0
construct 2 - -
iter - - 6
variant 14 1 0
struct 16 - 0,5
matchsome - - 6
matchtuple 0 - 7
matchvariant 0 - 1
extractstruct 255 - 10

level kind a b list
0 match 1 - 4,5
1 variant 14 1 13
2 return 3 0 -
1 variant 14 2 _,_
0 match 0 - -
1 int 1 00000000000000000000000000000007 -
2 equal 0 4 -
3 return 3 1 2
0 match 11 - -
1 some - - 12
0 return 3 0 -

";

/// Three more tables, for the iterator term of `BASE`.
const LOOP: &str = "\
term
1

kind a b list
arg 0 - -
extract 1 - 0
iter - - 1

level kind a b list
0 loop 2 - 1
1 return 2 0 -
1 return 2 1 -
0 return 0 0 -

";

/// `BASE` and `LOOP` with texts replaced, each of which stands there exactly once.
fn edited(edits: &[(&str, &str)]) -> String {
    let mut plan = format!("{BASE}{LOOP}");
    for (old, new) in edits {
        assert_eq!(plan.matches(old).count(), 1, "{old:?} in the plan");
        plan = plan.replacen(old, new, 1);
    }
    plan
}

/// The reading, 0 for a rule of the document itself; what is tried; the refusal; the edits.
type Reading = (
    u8,
    &'static str,
    u8,
    &'static [(&'static str, &'static str)],
);

fn rule(reading: u8) -> String {
    match reading {
        0 => "the document".to_string(),
        _ => format!("reading {reading}"),
    }
}

fn readings(tally: &mut Tally) {
    tally.refusal("the plan that is edited", 0, &edited(&[]));
    for (reading, what, expected, edits) in READINGS {
        tally.refusal(
            &format!("{}, {what}", rule(*reading)),
            *expected,
            &edited(edits),
        );
    }
    let long = "\t".repeat(65_537);
    tally.refusal("reading 1, too long and another byte", 1, &long);
    tally.refusal("reading 2, the empty file", 3, "");
    tally.refusal(
        "reading 2, no last LF",
        3,
        edited(&[]).strip_suffix('\n').unwrap(),
    );
    tally.refusal(
        "reading 2, no last empty line",
        3,
        edited(&[]).strip_suffix("\n\n").unwrap(),
    );
    tally.refusal("reading 2, an empty line more", 3, &(edited(&[]) + "\n"));
    tally.refusal(
        "reading 9, a term table alone",
        3,
        &(edited(&[]) + "term\n0\n\n"),
    );
    tally.refusal("reading 9, a line more", 3, &(edited(&[]) + "x\n"));
    tally.refusal(
        "reading 40, a term generated twice",
        0,
        &(edited(&[]) + LOOP),
    );
    let huge = "9".repeat(400);
    for (what, expected, old, row) in HUGE_NUMBERS {
        let plan = edited(&[(old, &row.replace('N', &huge))]);
        tally.refusal(
            &format!("reading 13, {what} of 400 digits"),
            *expected,
            &plan,
        );
    }
    for wrap in [
        "4294967296",
        "18446744073709551616",
        "340282366920938463463374607431768211456",
    ] {
        let plan = edited(&[("some - - 2", &format!("some - - {wrap}"))]);
        tally.refusal("reading 13, a number that would wrap to 0", 5, &plan);
    }
    let list = vec!["0"; 33].join(",");
    for (what, expected, old, row) in LONG_LISTS {
        let plan = edited(&[(old, &row.replace('L', &list))]);
        tally.refusal(
            &format!("readings 32 and 33, 33 values in {what}"),
            *expected,
            &plan,
        );
    }
}

#[rustfmt::skip]
const READINGS: &[Reading] = &[
    (2, "an empty line inside a table", 3, &[("a.isle", "a.isle\n\nb.isle")]),
    (3, "a space after the names", 3, &[("\nfile\n", "\nfile \n")]),
    (3, "names in another order", 3, &[("nopragmas log", "log nopragmas")]),
    (4, "no files", 0, &[("a.isle\n", "")]),
    (6, "a lone space, a dash and a names line as texts", 0, &[("a.isle", " \n-\nsym\n a  b ")]),
    (6, "a tab", 2, &[("a.isle", "a\t")]),
    (6, "byte 7F", 2, &[("a.isle", "a\x7f")]),
    (6, "byte 7E", 0, &[("a.isle", "a~")]),
    (7, "no options", 3, &[("0 0 0 -\n\nfile", "\nfile")]),
    (7, "options twice", 3, &[("0 0 0 -\n\nfile", "0 0 0 -\n0 0 0 -\n\nfile")]),
    (7, "no term", 3, &[("term\n1\n", "term\n")]),
    (7, "two terms", 3, &[("term\n1\n", "term\n1\n1\n")]),
    (8, "two spaces", 3, &[("bool 1 - -", "bool 1  - -")]),
    (8, "a space at the end", 3, &[("bool 1 - -", "bool 1 - - ")]),
    (8, "a column more", 3, &[("bool 1 - -", "bool 1 - - -")]),
    (8, "a column less", 3, &[("bool 1 - -", "bool 1 -")]),
    (8, "an unknown kind", 3, &[("bool 1 - -", "boole 1 - -")]),
    (10, "threshold 65535", 0, &[("0 0 0 -\n\nfile", "0 0 0 65535\n\nfile")]),
    (10, "threshold 65536", 3, &[("0 0 0 -\n\nfile", "0 0 0 65536\n\nfile")]),
    (11, "field 256", 3, &[("extractstruct 255", "extractstruct 256")]),
    (12, "flag 2", 3, &[("0 0 0 -\n\nfile", "0 2 0 -\n\nfile")]),
    (12, "bool binding 2", 3, &[("bool 1 - -", "bool 2 - -")]),
    (12, "bool arm 2", 3, &[("1 some - - 12", "1 bool 2 - -")]),
    (14, "leading zero in a row number", 3, &[("some - - 2", "some - - 02")]),
    (14, "leading zero in a level", 3, &[("\n3 return", "\n03 return")]),
    (14, "leading zero in a field", 3, &[("extractstruct 255", "extractstruct 0255")]),
    (14, "leading zero in a threshold", 3, &[("0 0 0 -\n\nfile", "0 0 0 00\n\nfile")]),
    (14, "a sign", 3, &[("some - - 2", "some - - +2")]),
    (15, "dash for a row number", 3, &[("prim 6 - -\nextract", "prim - - -\nextract")]),
    (15, "dash for a level", 3, &[("3 return", "- return")]),
    (15, "dash for a needed constructor", 5, &[("0 0 1 0 1 in - 0 1,14", "0 0 1 0 1 - - 0 1,14")]),
    (15, "an external name that is no number", 3, &[("0 0 1 0 1 in -", "0 0 1 0 1 inn -")]),
    (16, "unused value in a step", 3, &[("0 match 11 - -", "0 match 11 0 -")]),
    (16, "unused value in a binding", 3, &[("some - - 2", "some 0 - 2")]),
    (16, "unused value in an arm", 3, &[("1 some - - 12", "1 some - 0 12")]),
    (17, "prim type with a flag", 3, &[("prim 6 - - - -", "prim 6 0 - - -")]),
    (17, "prim type with a list", 3, &[("prim 6 - - - -", "prim 6 - - - 1")]),
    (18, "enum type with a list", 3, &[("enum 1 0 0 0 -", "enum 1 0 0 0 1")]),
    (18, "unit type with a list", 3, &[("unit 4 0 0 0 -", "unit 4 0 0 0 1")]),
    (18, "unit variant with a list", 3, &[("14 2 unit -", "14 2 unit 1")]),
    (19, "type alone in a named list", 3, &[("5:1,6:13", "5:1,13")]),
    (19, "named field in a tuple", 3, &[("0 0 1 1,14\n", "0 0 1 1,5:14\n")]),
    (19, "named field in a term", 3, &[("in - 0 1,14", "in - 0 1,5:14")]),
    (20, "named and tuple without fields", 0, &[
        ("14 2 unit -", "14 2 named -"),
        ("unit 4 0 0 0 -", "tuple 4 0 0 0 -"),
    ]),
    (21, "_ in a binding's list", 3, &[("some - - 2", "some - - _")]),
    (21, "_ in a constant's list", 3, &[("bool 1 - -", "bool 1 - _")]),
    (21, "_ in bind_order", 3, &[("0 match 1 - 4,5", "0 match 1 - 4,_")]),
    (22, "_ in a constant arm", 6, &[("7 -\n2 equal", "7 _\n2 equal")]),
    (23, "31 digits", 3, &[("int 1 00000000000000000000000000000007 -\nsome", "int 1 0000000000000000000000000000007 -\nsome")]),
    (23, "33 digits", 3, &[("int 1 00000000000000000000000000000007 -\nsome", "int 1 000000000000000000000000000000007 -\nsome")]),
    (23, "an upper-case digit", 3, &[("int 1 00000000000000000000000000000007 -\nsome", "int 1 0000000000000000000000000000000A -\nsome")]),
    (23, "a sign among the digits", 3, &[("int 1 00000000000000000000000000000007 -\nsome", "int 1 +0000000000000000000000000000007 -\nsome")]),
    (24, "infallible without extractor, multi and partial, extern and nodebug", 0, &[
        ("0 0 1 0 1 in - 0 1,14", "0 0 1 1 1 in - 1 1,14"),
        ("unit 4 0 0 0 -", "unit 4 1 1 0 -"),
    ]),
    (25, "first row at level 1", 3, &[("0 match 1 - 4,5\n", "")]),
    (25, "a jump of two", 3, &[("\n3 return", "\n4 return")]),
    (26, "a jump to 64", 3, &[("\n3 return", "\n64 return")]),
    (28, "a step right below match", 3, &[("1 some - - 12", "1 return 3 0 -")]),
    (28, "an arm at level 0", 3, &[("0 match 11 - -\n", "0 match 11 - -\n0 some - - 12\n")]),
    (28, "an arm below equal", 3, &[("3 return 3 1 2", "3 some - - 12")]),
    (28, "an arm below an arm", 3, &[("1 some - - 12", "1 some - - 12\n2 some - - 12")]),
    (28, "a row below return", 3, &[("3 return 3 1 2", "3 return 3 1 2\n4 return 3 1 2")]),
    (29, "empty bodies of equal and loop", 0, &[
        ("3 return 3 1 2\n", ""),
        ("1 return 2 0 -\n1 return 2 1 -\n", ""),
    ]),
    (30, "3 in a later table than 4", 3, &[("some - - 2", "some - - 2,2,2,2,2,2,2,2,2,2,2,2,2,2,2,2,2,2,2,2,2,2,2,2,2,2,2,2,2,2,2,2,2"), ("0 return 0 0 -", "0 return 0 -")]),
    (34, "name of an unused term", 5, &[("2 0 14 0 0 7 in 0 -", "2 0 14 0 0 7 in 0 -\n8 0 1 0 0 - - 0 -")]),
    (34, "position of an unused term", 5, &[("2 0 14 0 0 7 in 0 -", "2 0 14 0 0 7 in 0 -\n0 2 1 0 0 - - 0 -")]),
    (34, "result type of an unused term", 5, &[("2 0 14 0 0 7 in 0 -", "2 0 14 0 0 7 in 0 -\n0 0 18 0 0 - - 0 -")]),
    (34, "argument type of an unused term", 5, &[("2 0 14 0 0 7 in 0 -", "2 0 14 0 0 7 in 0 -\n0 0 1 0 0 - - 0 18")]),
    (34, "external name of an unused constructor", 5, &[("2 0 14 0 0 7 in 0 -", "2 0 14 0 0 7 in 0 -\n0 0 1 0 0 8 - 0 -")]),
    (34, "external name of an unused extractor", 5, &[("2 0 14 0 0 7 in 0 -", "2 0 14 0 0 7 in 0 -\n0 0 1 0 0 - 8 0 -")]),
    (34, "name of an unused type", 5, &[("unit 4 0 0 0 -", "unit 8 0 0 0 -")]),
    (34, "name of a prim type", 5, &[("prim 6 - - - -", "prim 8 - - - -")]),
    (34, "position of an extern type", 5, &[("unit 4 0 0 0 -", "unit 4 1 0 2 -")]),
    (34, "type of a field", 5, &[("5:1,6:13", "5:1,6:18")]),
    (34, "name of a field", 5, &[("5:1,6:13", "5:1,8:13")]),
    (34, "name of a variant", 5, &[("14 2 unit -", "14 8 unit -")]),
    (34, "binding of an arm", 5, &[("1 some - - 12", "1 some - - 15")]),
    (34, "bind_order", 5, &[("0 match 1 - 4,5", "0 match 1 - 4,15")]),
    (34, "source of a match", 5, &[("0 match 11 - -", "0 match 15 - -")]),
    (34, "second side of equal", 5, &[("2 equal 0 4 -", "2 equal 0 15 -")]),
    (34, "position of a return", 5, &[("3 return 3 1 2", "3 return 3 2 2")]),
    (34, "a generated term that doesn't exist", 5, &[("term\n1\n", "term\n3\n")]),
    (35, "variant of a struct", 5, &[("14 2 unit -", "15 2 unit -")]),
    (35, "variant of a builtin", 5, &[("14 2 unit -", "1 2 unit -")]),
    (36, "variants of two enums interleaved", 0, &[
        ("unit 4 0 0 0 -", "enum 4 0 0 0 -"),
        ("14 3 named 5:1", "15 2 unit -\n14 3 named 5:1\n15 3 unit -"),
    ]),
    (36, "a variant of the other enum", 5, &[
        ("unit 4 0 0 0 -", "enum 4 0 0 0 -"),
        ("14 3 tuple 1,13", "15 3 tuple 1,13"),
    ]),
    (36, "an enum without variants", 0, &[("unit 4 0 0 0 -", "enum 4 0 0 0 -")]),
    (37, "argument of the generated term", 5, &[("arg 1 - -", "arg 2 - -")]),
    (38, "extract without extractor", 5, &[("extract 1 - 0\nconstruct", "extract 0 - 0\nconstruct")]),
    (38, "extract with an internal extractor", 0, &[("extract 1 - 0\nconstruct", "extract 2 - 0\nconstruct")]),
    (38, "construct without constructor", 5, &[("2 0 14 0 0 7 in 0 -", "2 0 14 0 0 - in 0 -")]),
    (39, "generated term with an external constructor", 0, &[("1 0 1 1 0 in 7 1 1", "1 0 1 1 0 6 7 1 1")]),
    (41, "types that name themselves and later ones", 0, &[("5:1,6:13", "5:16,6:17")]),
    (42, "int of each other sort", 0, &[("bool 1 - -", "int 13 00000000000000000000000000000007 -"), ("1 some - - 12", "1 int 14 00000000000000000000000000000007 -\n1 int 15 00000000000000000000000000000007 -\n1 int 0 00000000000000000000000000000007 -")]),
    (42, "int of a type that doesn't exist", 5, &[("bool 1 - -", "int 18 00000000000000000000000000000007 -")]),
    (0, "the document's example of 5", 5, &[("variant 14 1 0", "variant 1 0 -")]),
    (0, "struct of an enum", 5, &[("struct 16 - 0,5", "struct 14 - 0,5")]),
    (0, "struct arm of an enum", 5, &[("1 some - - 12", "1 struct 14 - -")]),
    (0, "variant arm of a struct", 5, &[("1 variant 14 1 13", "1 variant 15 0 -")]),
    (0, "a variant that doesn't exist", 5, &[("1 variant 14 1 13", "1 variant 14 3 13")]),
    (43, "extract with two sources", 6, &[("extract 1 - 0\nconstruct", "extract 1 - 0,1\nconstruct")]),
    (43, "extract of a term without arguments", 0, &[("matchsome - - 6", "extract 2 - 6")]),
    (44, "wrong number and wrong length", 5, &[("some - - 2", "some - - 2,15")]),
    (0, "some arm with -", 6, &[("1 some - - 12", "1 some - - -")]),
    (0, "construct with a parameter more", 6, &[("construct 2 - -", "construct 2 - 0")]),
    (0, "variant with a field less", 6, &[("variant 14 1 0", "variant 14 1 -")]),
    (0, "struct with a field less", 6, &[("struct 16 - 0,5", "struct 16 - 0")]),
    (0, "bool with a source", 6, &[("bool 1 - -", "bool 1 - 0")]),
    (0, "arg with a source", 6, &[("arg 1 - -", "arg 1 - 0")]),
    (0, "matchtuple without source", 6, &[("matchtuple 0 - 7", "matchtuple 0 - -")]),
    (0, "source not lower", 7, &[("some - - 2", "some - - 3")]),
    (45, "an arm, a bind_order and a match that name later bindings", 0, &[
        ("1 some - - 12", "1 some - - 14"),
        ("0 match 11 - -", "0 match 14 - 14,14"),
    ]),
    (0, "two arg of one index", 7, &[("arg 1 - -", "arg 0 - -")]),
    (47, "a loop in a term not of iterator kind", 8, &[("1 0 1 1 0 in 7 1 1", "1 0 1 0 0 in 7 1 1")]),
    (47, "two returns in a row", 8, &[("0 return 3 0 -", "0 return 3 0 -\n0 return 3 0 -")]),
    (47, "a step after a return, below an arm", 8, &[("3 return 3 1 2", "3 return 3 1 2\n3 equal 0 0 -")]),
    (47, "a return in each of two arms", 0, &[("1 variant 14 2 _,_", "1 variant 14 2 _,_\n2 return 3 0 -")]),
    (48, "9 before 8", 8, &[("1 some - - 12\n", ""), ("0 return 3 0 -", "0 return 3 0 -\n0 return 3 0 -")]),
    (0, "a match without arms", 9, &[("1 some - - 12\n", "")]),
    (0, "a match without arms at the end", 9, &[("0 return 0 0 -", "0 match 0 - -")]),
    (0, "9 before 10", 9, &[("0 loop 2 - 1", "0 loop 1 - 1"), ("1 some - - 12\n", "")]),
    (0, "loop over an extract", 10, &[("0 loop 2 - 1", "0 loop 1 - 1")]),
    (49, "loop over an extract in a term not of iterator kind", 8, &[
        ("0 loop 2 - 1", "0 loop 1 - 1"),
        ("1 0 1 1 0 in 7 1 1", "1 0 1 0 0 in 7 1 1"),
    ]),
    (50, "loop over an unbound argument", 0, &[("iter - - 1", "iter - - 0"), ("0 loop 2 - 1", "0 loop 2 - -")]),
    (51, "arms of mixed kinds, equal arms", 0, &[("1 some - - 12", "1 some - - 12\n1 bool 0 - -\n1 bool 0 - -\n1 prim 6 - -\n1 struct 15 - -")]),
];

/// N stands for a number of 400 digits.
#[rustfmt::skip]
const HUGE_NUMBERS: &[(&str, u8, &str, &str)] = &[
    ("a source", 5, "some - - 2", "some - - N"),
    ("an argument", 5, "arg 1 - -", "arg N - -"),
    ("a type", 5, "5:1,6:13", "5:1,6:N"),
    ("a variant", 5, "1 variant 14 1 13", "1 variant 14 N 13"),
    ("a term", 5, "term\n1\n", "term\nN\n"),
    ("a position", 5, "3 return 3 1 2", "3 return 3 N 2"),
    ("a threshold", 3, "0 0 0 -\n\nfile", "0 0 0 N\n\nfile"),
    ("a field", 3, "extractstruct 255", "extractstruct N"),
    ("a level", 3, "\n3 return", "\nN return"),
];

/// L stands for a list of 33 values, each 0.
#[rustfmt::skip]
const LONG_LISTS: &[(&str, u8, &str, &str)] = &[
    ("a prim type", 3, "prim 6 - - - -", "prim 6 - - - L"),
    ("a unit type", 3, "unit 4 0 0 0 -", "unit 4 0 0 0 L"),
    ("a tuple", 4, "0 0 1 1,14\n", "0 0 1 L\n"),
    ("a variant", 4, "14 3 tuple 1,13", "14 3 tuple L"),
    ("a term", 4, "in - 0 1,14", "in - 0 L"),
    ("a constant", 4, "bool 1 - -", "bool 1 - L"),
    ("arg", 4, "arg 1 - -", "arg 1 - L"),
    ("a one-source kind", 4, "some - - 2", "some - - L"),
    ("bind_order", 4, "0 match 1 - 4,5", "0 match 1 - L"),
    ("an arm", 4, "1 some - - 12", "1 some - - L"),
];

/// The document's worked case, from the files beside this program's source.
fn worked(tally: &mut Tally) {
    let plan = include_bytes!("../examples/worked.plan");
    let terms = include_str!("../examples/worked.terms");
    let whole = include_str!("../examples/worked.whole");
    let expected = |text: &str| Answer {
        number: 0,
        length: text.len(),
        count: 0,
        text: text.into(),
    };
    tally.expect(
        "worked case, terms",
        expected(terms),
        answer(plan, Form::Terms, BUFFER),
    );
    tally.expect(
        "worked case, whole",
        expected(whole),
        answer(plan, Form::Whole, BUFFER),
    );
}

/// A plan with the given options, names and block for one generated term, of which type 13 is an
/// enum; `multi` is the term's flag.
fn small(options: &str, name: &str, multi: u8, bindings: &str, block: &str) -> String {
    format!(
        "nopragmas log split threshold\n{options}\n\nfile\na.isle\n\nsym\n{name}\nE\n\npos\nat \"p\\\n\n\
         kind name extern nodebug pos list\nenum 1 0 0 0 -\n\ntype name shape list\n\n\
         name pos ret multi partial ctor xtor infallible list\n0 0 1 {multi} 0 in - 0 1\n\n\
         term\n0\n\nkind a b list\n{bindings}\nlevel kind a b list\n{block}\n"
    )
}

fn terms_of(plan: &str) -> Answer {
    answer(plan.as_bytes(), Form::Terms, BUFFER)
}

/// The edges of literals, and each builtin's bounds: type, value, text, odd.
#[rustfmt::skip]
const LITERALS: &[(u32, i128, &str, u64)] = &[
    (0, 1, "0x1", 0),
    (0, -1, "0xffffffffffffffffffffffffffffffff", 0),
    (1, 255, "0xff_u8", 0),
    (1, 256, "0x0_u8", 1),
    (1, -1, "0xff_u8", 1),
    (2, 65_535, "0xffff_u16", 0),
    (2, 65_536, "0x0_u16", 1),
    (3, 4_294_967_295, "0xffffffff_u32", 0),
    (3, 4_294_967_296, "0x0_u32", 1),
    (4, 18_446_744_073_709_551_615, "0xffffffffffffffff_u64", 0),
    (4, 18_446_744_073_709_551_616, "0x0_u64", 1),
    (5, -1, "0xffffffffffffffffffffffffffffffff_u128", 0),
    (6, 18_446_744_073_709_551_615, "0xffffffffffffffff_usize", 0),
    (6, 18_446_744_073_709_551_616, "0x10000000000000000_usize", 1),
    (6, -1, "0xffffffffffffffffffffffffffffffff_usize", 1),
    (7, 127, "127_i8", 0),
    (7, 128, "-128_i8", 1),
    (7, 255, "-1_i8", 1),
    (7, -128, "-128_i8", 0),
    (7, -129, "127_i8", 1),
    (8, -32_768, "-32768_i16", 0),
    (8, -32_769, "32767_i16", 1),
    (9, 2_147_483_647, "2147483647_i32", 0),
    (9, 2_147_483_648, "-2147483648_i32", 1),
    (10, -9_223_372_036_854_775_808, "-9223372036854775808_i64", 0),
    (10, -9_223_372_036_854_775_809, "9223372036854775807_i64", 1),
    (11, i128::MIN, "-170141183460469231731687303715884105728_i128", 0),
    (11, i128::MAX, "170141183460469231731687303715884105727_i128", 0),
    (12, 9_223_372_036_854_775_807, "9223372036854775807_isize", 0),
    (12, 9_223_372_036_854_775_808, "9223372036854775808_isize", 1),
    (12, -9_223_372_036_854_775_809, "-9223372036854775809_isize", 1),
    (13, -1, "0xffffffffffffffffffffffffffffffff", 0),
];

fn literals(tally: &mut Tally) {
    for &(ty, value, text, odd) in LITERALS {
        let bindings = format!("int {ty} {value:032x} -\narg 0 - -\n");
        let what = format!("literal {value} of type {ty}");
        let block = "0 return 0 0 -\n";
        let got = terms_of(&small("0 0 0 -", "t", 0, &bindings, block));
        tally.expect(
            &what,
            (true, odd),
            (got.text.contains(&format!("return {text};\n")), got.count),
        );
        let block = format!("0 match 1 - -\n1 int {ty} {value:032x} -\n0 return 1 0 -\n");
        let got = terms_of(&small("0 0 0 -", "t", 0, &bindings, &block));
        tally.expect(
            &what,
            (true, odd),
            (
                got.text.contains(&format!("if arg0 == {text} {{\n")),
                got.count,
            ),
        );
    }
}

fn quoted(tally: &mut Tally) {
    let got = terms_of(&small(
        "0 1 0 -",
        "a\"b",
        0,
        "arg 0 - -\n",
        "0 return 0 0 -\n",
    ));
    let line = r#"    log::debug!("ISLE {} {}", "a\"b", "at \"p\\");"#;
    tally.expect("quoted in a log line", true, got.text.contains(line));
    let got = terms_of(&small("0 1 0 -", "a\"b", 0, "", ""));
    let line = r#"should it be partial?", "a\"b", "at \"p\\")"#;
    tally.expect("quoted in the last line", true, got.text.contains(line));
}

fn buffers(tally: &mut Tally) {
    let plan = include_bytes!("../examples/worked.plan");
    for form in [Form::Whole, Form::Terms] {
        let length = answer(plan, form, BUFFER).length;
        let exact = answer(plan, form, length);
        tally.expect(
            "reading 52, a text of the buffer's length",
            (0, length),
            (exact.number, exact.length),
        );
        let refused = Answer {
            number: 11,
            length: 0,
            count: 0,
            text: String::new(),
        };
        tally.expect(
            "reading 52, a buffer one shorter",
            refused,
            answer(plan, form, length - 1),
        );
    }
    let worked = std::str::from_utf8(plan).expect("ASCII");
    let nothing = &worked[..worked.find("term\n").expect("a term table")];
    let got = answer(nothing.as_bytes(), Form::Terms, 0);
    tally.expect(
        "readings 5 and 52, an empty text and a buffer of 0",
        (0, 0),
        (got.number, got.length),
    );
    tally.expect(
        "reading 53, terms",
        0,
        answer(plan, Form::Terms, 1_000).number,
    );
    tally.expect(
        "reading 53, whole",
        11,
        answer(plan, Form::Whole, 1_000).number,
    );
    tally.expect("a refusal before 11", 3, answer(b"", Form::Whole, 0).number);
}

/// The text of a term of iterator kind with splitting on.
fn split_text(threshold: &str, block: &str) -> String {
    let options = format!("0 0 1 {threshold}");
    let plan = small(&options, "t", 1, "arg 0 - -\n", block);
    let got = answer(plan.as_bytes(), Form::Terms, 1 << 20);
    assert_eq!(got.number, 0);
    got.text
}

/// The closures in the text of a match with so many arms, each with a body of the given weight.
fn closures(threshold: &str, arms: usize, weight: usize) -> usize {
    let body = "2 return 0 0 -\n".repeat(weight);
    let arms = format!("1 bool 0 - -\n{body}").repeat(arms);
    let text = split_text(threshold, &format!("0 match 0 - -\n{arms}"));
    text.matches("if (|| -> bool {").count()
}

fn splits(tally: &mut Tally) {
    tally.expect("default threshold, weight 256", 0, closures("-", 2, 256));
    tally.expect("default threshold, weight 257", 2, closures("-", 2, 257));
    tally.expect("threshold 0, empty bodies", 0, closures("0", 2, 0));
    tally.expect("threshold 0, weight 1", 3, closures("0", 3, 1));
    tally.expect("threshold 0, one arm", 0, closures("0", 1, 1));
    tally.expect("threshold 65535", 0, closures("65535", 2, 300));
    let arms = |level: usize| format!("{level} bool 1 - -\n{level} bool 0 - -\n");
    let nested = (0..64).step_by(2);
    let nested = nested.map(|level| format!("{level} match 0 - -\n{}", arms(level + 1)));
    let got = split_text("0", &nested.collect::<String>());
    let lines = got.matches("if (|| -> bool {").count();
    let numbers = (0..31).all(|number| got.contains(&format!("// __isle_arm_{number}\n")));
    tally.expect("31 closures in each other", (31, true), (lines, numbers));
}

/// Counts of plans whose literals are written several times, or not at all (reading 55).
fn odd_counts(tally: &mut Tally) {
    let bindings = "int 1 00000000000000000000000000000100 -\nsome - - 0\narg 0 - -\niter - - 1\n";
    let mut expect = |what: &str, expected: u64, multi: u8, block: &str| {
        let got = terms_of(&small("0 0 0 -", "t", multi, bindings, block));
        tally.expect(what, expected, got.count);
        tally.expect(what, expected as usize, got.text.matches("0x0_u8").count());
    };
    expect(
        "an odd binding that isn't written",
        0,
        0,
        "0 return 2 0 -\n",
    );
    expect("shared by two sides", 2, 0, "0 equal 0 1 -\n");
    expect("bound, then used", 1, 0, "0 equal 0 1 0\n1 return 1 0 -\n");
    expect("bound twice", 1, 0, "0 return 2 0 0,0\n");
    expect(
        "bound stays bound in the block",
        1,
        0,
        "0 equal 2 2 0\n0 return 1 0 -\n",
    );
    expect(
        "bound in a body ends with it",
        2,
        0,
        "0 equal 2 2 -\n1 equal 2 2 0\n0 return 1 0 -\n",
    );
    expect(
        "one pattern arm binds before its source",
        0,
        0,
        "0 match 0 - -\n1 some - - 0\n",
    );
    expect(
        "two arms: the source comes first",
        1,
        0,
        "0 match 0 - -\n1 some - - 0\n1 some - - 0\n",
    );
    expect(
        "an arm's binding ends with the arm",
        2,
        0,
        "0 match 2 - -\n1 some - - 0\n2 return 0 0 -\n1 some - - 1\n2 return 0 0 -\n0 return 1 0 -\n",
    );
    expect(
        "one constant arm",
        2,
        0,
        "0 match 1 - -\n1 int 1 00000000000000000000000000000100 -\n2 return 2 0 -\n",
    );
    expect(
        "a loop writes names only",
        0,
        1,
        "0 loop 3 - -\n1 return 3 0 -\n",
    );
    expect(
        "after a loop its result is written out",
        1,
        1,
        "0 loop 3 - -\n0 return 3 0 -\n",
    );
}
