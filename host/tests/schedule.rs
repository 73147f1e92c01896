//! The schedule check: its faults as values, and the command that tells them.

use rizhavel::{Fault, Rule, schedule};
use std::fs;
use std::io::Write;
use std::path::PathBuf;
use std::process::{Command, Output, Stdio};

fn root() -> PathBuf {
    PathBuf::from(env!("CARGO_MANIFEST_DIR")).join("..")
}

fn worked() -> Vec<u8> {
    fs::read(root().join("oracle/examples/worked.plan")).unwrap()
}

/// Each letter, and term 0 generated three times.
fn faulty() -> Vec<u8> {
    fs::read(root().join("crates/schedule/stdin")).unwrap()
}

fn rizhavel(words: &[&str], input: &[u8]) -> Output {
    let mut command = Command::new(env!("CARGO_BIN_EXE_rizhavel"));
    let mut child = command.args(words).stdin(Stdio::piped()).stdout(Stdio::piped()).stderr(Stdio::piped()).spawn().unwrap();
    // A command that does not read its input closes it.
    let _ = child.stdin.take().unwrap().write_all(input);
    child.wait_with_output().unwrap()
}

/// Status, standard output, standard error.
fn told(words: &[&str], input: &[u8]) -> (i32, String, String) {
    let output = rizhavel(words, input);
    (output.status.code().unwrap(), String::from_utf8(output.stdout).unwrap(), String::from_utf8(output.stderr).unwrap())
}

#[test]
fn faults() {
    assert_eq!(schedule(&worked()), Ok(vec![]));
    let fault = |row, rule| Fault { term: 0, row, rule };
    let (a, b, c) = (Rule::LoopSourceBound, Rule::CallInList, Rule::SourceBeforeArm);
    assert_eq!(schedule(&faulty()), Ok(vec![fault(0, a), fault(0, b), fault(1, b), fault(2, c), fault(0, a)]));
    assert_eq!(
        fault(2, c).to_string(),
        "term 0, row 2: (c) the source of the match uses a binding of its own arm: put that binding into the list of this row or of a row before it"
    );
    assert_eq!(schedule(b"\t").unwrap_err().number(), 2);
}

/// The length of the text plays no part: this one is beyond any memory.
#[test]
fn text_beyond_memory() {
    let bindings: String = (0..1023).map(|k| format!("struct 13 - {k},{k}\n")).collect();
    let plan = format!(
        "nopragmas log split threshold\n0 0 0 -\n\nfile\n\nsym\nPair\n\npos\np\n\nkind name extern nodebug pos list\ntuple 0 0 0 0 13,13\n\n\
         type name shape list\n\nname pos ret multi partial ctor xtor infallible list\n0 0 13 0 0 in - 0 13\n\n\
         term\n0\n\nkind a b list\narg 0 - -\n{bindings}\nlevel kind a b list\n0 return 1023 0 -\n\n"
    );
    assert_eq!(schedule(plan.as_bytes()), Ok(vec![]));
}

#[test]
fn check() {
    assert_eq!(told(&["check"], &worked()), (0, "standard input: no fault\n".into(), "".into()));
    let (status, out, err) = told(&["check"], &faulty());
    assert_eq!((status, err.as_str()), (1, ""));
    let lines: Vec<&str> = out.lines().collect();
    assert_eq!(lines.len(), 5);
    // The three blocks of term 0 are told apart: their rows stand on lines of their own.
    for (line, start) in lines.iter().zip([
        "standard input:40: in the term g, row 0 `0 loop 2 - 2`: (a) the iterator source of the loop ",
        "standard input:40: in the term g, row 0 `0 loop 2 - 2`: (b) a call of iterator kind ",
        "standard input:41: in the term g, row 1 `1 return 1 0 -`: (b) ",
        "standard input:42: in the term g, row 2 `0 match 1 - -`: (c) the source of the match ",
        "standard input:79: in the term g, row 0 `0 loop 2 - -`: (a) ",
    ]) {
        assert!(line.starts_with(start), "{line}");
    }
    let refused = "rizhavel: standard input: refused 3: a table, row, level or value is not as laid out\n";
    assert_eq!(told(&["check", "-"], b""), (1, "".into(), refused.into()));
}

#[test]
fn emit() {
    let text = fs::read_to_string(root().join("oracle/examples/worked.whole")).unwrap();
    let plan = root().join("oracle/examples/worked.plan");
    assert_eq!(told(&["emit", plan.to_str().unwrap()], b""), (0, text, "".into()));
    let odd = String::from_utf8(worked()).unwrap().replace("00007 -", "00100 -");
    let (status, out, err) = told(&["emit"], odd.as_bytes());
    assert_eq!(status, 0);
    assert!(out.contains("0x0_u8"));
    assert_eq!(err, "rizhavel: standard input: integer literals outside their type's range: 2\n");
    assert_eq!(told(&["emit"], b"\t").0, 1);
}

#[test]
fn usage() {
    let (status, out, err) = told(&["--help"], b"");
    assert_eq!((status, err.as_str()), (0, ""));
    assert!(out.starts_with("usage: rizhavel emit [PLAN]\n"));
    for words in [&[][..], &["explode"], &["check", "--colour"], &["check", "a", "b"], &["emit", "no such plan"], &["check", "/"]] {
        let (status, out, err) = told(words, b"");
        assert_eq!((status, out.as_str()), (2, ""), "{words:?}");
        assert!(err.starts_with("rizhavel: ") && err.lines().count() == 1, "{words:?}: {err}");
    }
}
