//! The schedule check on the smallest plan of each reading of request 01, and on long texts and
//! sheets.

use super::{Form, Tally, answer};
use oracle::plan::Plan;
use oracle::schedule::{schedule, watched};

/// Types: an enum (13) with one variant and a tuple (14). Terms: `g` of iterator kind and internal,
/// `it` of iterator kind and external, `pl` plain and external, `g` again of option kind, `mp`
/// multi and partial.
const TABLES: &str = "\
file

sym
g
it
pl
S
V

pos
p

kind name extern nodebug pos list
enum 3 0 0 0 -
tuple 3 0 0 0 1,1

type name shape list
13 4 tuple 1,1

name pos ret multi partial ctor xtor infallible list
0 0 1 1 0 in - 0 1
1 0 1 1 0 1 1 0 1
2 0 1 0 0 2 2 1 1
0 0 1 0 1 in - 0 1
2 0 1 1 1 2 in 1 1

";

/// The sheet does not depend on the options, so each case has both lines.
const OPTIONS: &[&str] = &["0 0 0 -", "1 1 1 0"];

fn generated(term: usize, bindings: &[&str], rows: &[&str]) -> String {
    let lines = |lines: &[&str]| {
        lines
            .iter()
            .map(|line| format!("{line}\n"))
            .collect::<String>()
    };
    format!(
        "term\n{term}\n\nkind a b list\n{}\nlevel kind a b list\n{}\n",
        lines(bindings),
        lines(rows)
    )
}

fn plan(options: &str, groups: &str) -> String {
    format!("nopragmas log split threshold\n{options}\n\n{TABLES}{groups}")
}

/// The sheet, once the watched copy is seen to write the crate's own text.
fn sheet(tally: &mut Tally, what: &str, plan: &str) -> String {
    expect_same_text(tally, what, plan);
    schedule(plan.as_bytes()).to_string()
}

/// The watch points change no byte of the text.
pub fn expect_same_text(tally: &mut Tally, what: &str, plan: &str) {
    let Ok(read) = Plan::read(plan.as_bytes()) else {
        return;
    };
    let text = watched(&read).map(|(text, _)| text);
    let by_answer = answer(plan.as_bytes(), Form::Terms, 4_000_000);
    let by_answer = (by_answer.number == 0).then_some(by_answer.text);
    tally.expect(&format!("{what}, the watched text"), by_answer, text);
}

/// A reading of request 01, what is tried, the bindings and the rows of term 0, and the faults.
type Case = (
    u8,
    &'static str,
    &'static [&'static str],
    &'static [&'static str],
    &'static [&'static str],
);

const ARG: &str = "arg 0 - -";
const IT: &str = "construct 1 - 0";

#[rustfmt::skip]
const CASES: &[Case] = &[
    (3, "an empty block", &[], &[], &[]),
    (3, "nothing is bound", &[ARG], &["0 return 0 0 -"], &[]),
    (7, "all rows count", &[ARG, IT],
        &["0 equal 0 0 -", "1 return 1 0 1", "0 return 1 0 -"], &["2 b"]),
    (7, "arms count", &[ARG, IT],
        &["0 match 0 - -", "1 some - - _", "2 return 1 0 -", "1 bool 0 - -", "0 return 1 0 -"], &["2 b", "4 b"]),
    (8, "a and b on one row", &[ARG, IT, "some - - 1", "iter - - 1"], &["0 loop 3 - 2"], &["0 a", "0 b"]),
    (8, "b and c on one row", &[ARG, IT, "struct 14 - 1,0"],
        &["0 match 2 - -", "1 some - - 0"], &["0 b", "0 c"]),
    (9, "a call written twice", &[ARG, IT], &["0 equal 1 1 -"], &["0 b"]),
    (9, "members and head", &[ARG, IT, "some - - 1", "some - - 2"], &["0 equal 1 1 2,3"], &["0 b"]),
    (10, "a loop doesn't bind its source", &[ARG, IT, "iter - - 1"],
        &["0 loop 2 - -", "0 loop 2 - -"], &["0 a", "1 a"]),
    (10, "an argument is not bound", &[ARG, "iter - - 0"], &["0 loop 1 - -"], &["0 a"]),
    (11, "a list stays for the rest of its block", &[ARG, IT, "iter - - 1"],
        &["0 equal 0 0 1", "1 equal 0 0 -", "2 loop 2 - -", "0 loop 2 - -"], &[]),
    (11, "a list in a body ends with it", &[ARG, IT, "iter - - 1"],
        &["0 equal 0 0 -", "1 loop 2 - 1", "0 loop 2 - -"], &["2 a"]),
    (11, "an arm's binding ends with the arm", &[ARG, IT, "iter - - 1"],
        &["0 match 0 - -", "1 some - - 1", "2 loop 2 - -", "1 some - - _", "2 loop 2 - -", "0 loop 2 - -"],
        &["4 a", "5 a"]),
    (11, "a loop's result ends with the loop", &[ARG, IT, "iter - - 1", "iter - - 2"],
        &["0 loop 2 - 1", "1 loop 3 - -", "0 loop 3 - -"], &["2 a"]),
    (11, "a list in an arm that can be a closure", &[ARG, IT, "iter - - 1"],
        &["0 match 0 - -", "1 some - - _", "2 loop 2 - 1", "2 loop 2 - -", "1 some - - _", "2 loop 2 - -"], &["5 a"]),
    (13, "the source is listed", &[ARG, IT, "iter - - 1"], &["0 loop 2 - 1"], &[]),
    (13, "the source is not listed", &[ARG, IT, "iter - - 1"], &["0 loop 2 - -"], &["0 a"]),
    (14, "a listed argument", &[ARG, "iter - - 0"], &["0 loop 1 - 0"], &[]),
    (14, "a listed bool", &["bool 1 - -", "iter - - 0"], &["0 loop 1 - 0"], &[]),
    (15, "the result in the list", &[ARG, IT, "iter - - 1"], &["0 loop 2 - 2"], &["0 a", "0 b"]),
    (16, "an external extract", &[ARG, "extract 1 - 0"], &["0 return 1 0 -"], &["0 b"]),
    (16, "an internal construct", &[ARG, "construct 0 - 0"], &["0 return 1 0 -"], &["0 b"]),
    (16, "an internal extract, multi and partial, infallible", &[ARG, "extract 4 - 0"], &["0 return 1 0 -"], &["0 b"]),
    (16, "a plain construct", &[ARG, "construct 2 - 0"], &["0 return 1 0 -"], &[]),
    (16, "a plain extract", &[ARG, "extract 2 - 0"], &["0 return 1 0 -"], &[]),
    (16, "a construct of option kind", &[ARG, "construct 3 - 0"], &["0 return 1 0 -"], &[]),
    (17, "a call that nothing comes to", &[ARG, IT, "some - - 1"], &["0 return 0 0 -"], &[]),
    (17, "a call below unbound sources", &[ARG, IT, "some - - 1", "some - - 2"], &["0 return 3 0 -"], &["0 b"]),
    (17, "a call below a bound binding", &[ARG, IT, "some - - 1"],
        &["0 match 0 - -", "1 some - - 2", "2 return 2 0 -"], &[]),
    (18, "the source of a match of two arms", &[ARG, IT],
        &["0 match 1 - -", "1 bool 0 - -", "1 bool 1 - -"], &["0 b"]),
    (18, "the first side of equal", &[ARG, IT], &["0 equal 1 0 -"], &["0 b"]),
    (18, "the second side of equal", &[ARG, IT], &["0 equal 0 1 -"], &["0 b"]),
    (19, "the call after its use in the list", &[ARG, IT, "some - - 1"], &["0 return 0 0 2,1"], &["0 b"]),
    (19, "the call before its use in the list", &[ARG, IT, "some - - 1"], &["0 return 0 0 1,2"], &[]),
    (19, "the call in a later step", &[ARG, IT, "some - - 1"],
        &["0 return 0 0 2", "0 return 2 0 1"], &["0 b"]),
    (20, "a parameter of a listed call", &[ARG, IT, "construct 1 - 1"], &["0 return 2 0 2"], &["0 b"]),
    (20, "a listed parameter of a listed call", &[ARG, IT, "construct 1 - 1"], &["0 return 2 0 1,2"], &[]),
    (21, "a member twice", &[ARG, IT], &["0 return 0 0 1,1"], &[]),
    (21, "a member that an earlier step listed", &[ARG, IT], &["0 return 0 0 1", "0 return 0 0 1"], &[]),
    (21, "a member that a pattern bound", &[ARG, IT],
        &["0 match 0 - -", "1 some - - 1", "2 return 0 0 1"], &[]),
    (22, "a match on what its one arm binds", &[ARG, IT], &["0 match 1 - -", "1 some - - 1"], &["0 c"]),
    (22, "a match on what its two arms bind", &[ARG, IT],
        &["0 match 1 - -", "1 some - - 1", "1 some - - 1"], &["0 b"]),
    (22, "a constant arm", &[ARG, IT], &["0 match 1 - -", "1 bool 0 - -"], &["0 b"]),
    (23, "one arm some", &[ARG, "some - - 0"], &["0 match 1 - -", "1 some - - 0"], &["0 c"]),
    (23, "one arm variant", &[ARG, "some - - 0"], &["0 match 1 - -", "1 variant 13 0 _,0"], &["0 c"]),
    (23, "one arm struct", &[ARG, "some - - 0"], &["0 match 1 - -", "1 struct 14 - 0,_"], &["0 c"]),
    (23, "two equal arms", &[ARG, "some - - 0"],
        &["0 match 1 - -", "1 some - - 0", "1 some - - 0"], &[]),
    (23, "a constant arm more", &[ARG, "some - - 0"],
        &["0 match 1 - -", "1 some - - 0", "1 bool 0 - -"], &[]),
    (23, "an arm of the next match", &[ARG, "some - - 0"],
        &["0 match 1 - -", "1 some - - 0", "2 match 1 - -", "3 some - - 0", "0 match 1 - -", "1 some - - 0"],
        &["0 c", "4 c"]),
    (24, "_ names nothing", &[ARG, "some - - 0"], &["0 match 1 - -", "1 some - - _"], &[]),
    (24, "a binding named twice", &[ARG, "some - - 0"], &["0 match 1 - -", "1 variant 13 0 0,0"], &["0 c"]),
    (24, "below a bound source", &[ARG, "some - - 0"], &["0 match 1 - 1", "1 some - - 0"], &[]),
    (24, "the source among the arm's binding's sources", &[ARG, "matchsome - - 0"],
        &["0 match 0 - -", "1 some - - 1"], &[]),
    (24, "the buffer of a call", &[ARG, IT, "some - - 1"], &["0 match 2 - -", "1 some - - 0"], &["0 b", "0 c"]),
    (25, "bound by the step's list", &[ARG], &["0 match 0 - 0", "1 some - - 0"], &[]),
    (25, "bound by an outer list", &[ARG, "some - - 0"],
        &["0 equal 0 0 0", "1 match 1 - -", "2 some - - 0"], &[]),
    (25, "bound by an outer pattern", &[ARG, "some - - 0"],
        &["0 match 1 - -", "1 some - - 0", "2 match 1 - -", "3 some - - 0"], &["0 c"]),
    (25, "bound by an outer loop", &[ARG, IT, "iter - - 1", "some - - 2"],
        &["0 loop 2 - 1", "1 match 3 - -", "2 some - - 2"], &[]),
];

pub fn cases(tally: &mut Tally) {
    for (reading, what, bindings, rows, faults) in CASES {
        let what = format!("reading A{reading}, {what}");
        let lines = faults.iter().map(|fault| format!("0 {fault}\n"));
        let expected = format!("term row fault\n{}", lines.collect::<String>());
        for options in OPTIONS {
            let plan = plan(options, &generated(0, bindings, rows));
            let got = sheet(tally, &what, &plan);
            tally.expect(&what, expected.clone(), got);
        }
    }
}

/// Plans with other generated terms than term 0 alone, and plans that are refused.
pub fn sheets(tally: &mut Tally) {
    let mut expect = |what: &str, expected: &str, groups: &str| {
        let got = sheet(tally, what, &plan(OPTIONS[0], groups));
        tally.expect(what, expected.to_string(), got);
    };
    let faulty = generated(0, &[ARG, IT, "iter - - 1"], &["0 loop 2 - -"]);
    let option = generated(3, &[ARG, IT], &["0 return 1 0 -"]);
    expect("reading A3, no generated term", "term row fault\n", "");
    expect("reading A4, one fault", "term row fault\n0 0 a\n", &faulty);
    expect(
        "reading A5 and A16, the row of the term table",
        "term row fault\n3 0 b\n",
        &option,
    );
    expect(
        "reading A6, a term generated twice",
        "term row fault\n0 0 a\n3 0 b\n0 0 a\n",
        &format!("{faulty}{option}{faulty}"),
    );
    let listed = generated(0, &[ARG, IT, "iter - - 1"], &["0 loop 2 - 1"]);
    expect(
        "reading A11, each term begins with an empty set",
        "term row fault\n0 0 a\n",
        &format!("{listed}{faulty}"),
    );
    let refused = faulty.replace("0 loop 2", "0 loop 1");
    expect("reading A2, a refused plan", "refused 10\n", &refused);
    let refused = faulty.replace("loop", "lop");
    expect("reading A2, a refused plan", "refused 3\n", &refused);
}

/// A sheet that is longer than its plan, and a text that is too long to watch (reading A26).
pub fn lengths(tally: &mut Tally) {
    let bindings = ["construct 0 - -", "some - - 0", "iter - - 0"];
    let mut groups = String::new();
    for rows in [2_048, 2_048, 676] {
        let rows: Vec<&str> = (0..rows)
            .map(|row| ["0 loop 2 - -", "1 loop 2 - 1"][row % 2])
            .collect();
        groups += &generated(100, &bindings, &rows);
    }
    let terms = "0 0 0 1 0 in - 0 -\n".repeat(101);
    let long = format!(
        "nopragmas log split threshold\n0 0 0 -\n\nfile\n\nsym\ng\n\npos\np\n\n\
         kind name extern nodebug pos list\n\ntype name shape list\n\n\
         name pos ret multi partial ctor xtor infallible list\n{terms}\n{groups}"
    );
    let what = "reading A26, a sheet longer than its plan";
    let got = sheet(tally, what, &long);
    let lines = got.lines().count();
    tally.expect(what, 1 + 3 * (2_048 + 2_048 + 676) / 2, lines);
    tally.expect(what, true, got.len() > 65_536 && got.len() > long.len());

    let chain = (1..200).map(|i| format!("struct 14 - {},{}", i - 1, i - 1));
    let bindings: Vec<String> = std::iter::once(ARG.to_string()).chain(chain).collect();
    let bindings: Vec<&str> = bindings.iter().map(String::as_str).collect();
    let exploding = plan(OPTIONS[0], &generated(0, &bindings, &["0 return 199 0 -"]));
    let got = schedule(exploding.as_bytes()).to_string();
    tally.expect("a text too long to watch", "too long\n".to_string(), got);
}
