//! The entries on the worked plan of document 01: texts, lengths, counts, refusals, and untouched bytes.

use rizhavel::{Text, emit, emit_terms, emit_terms_to_vec, emit_to_vec};
use std::fs;
use std::path::PathBuf;

fn example(name: &str) -> Vec<u8> {
    let path = PathBuf::from(env!("CARGO_MANIFEST_DIR")).join("../oracle/examples").join(name);
    fs::read(&path).unwrap_or_else(|error| panic!("{}: {error}", path.display()))
}

#[test]
fn worked_plan() {
    let plan = example("worked.plan");
    assert_eq!(emit_to_vec(&plan, 65536).unwrap(), Text { bytes: example("worked.whole"), odd_literals: 0 });
    assert_eq!(emit_terms_to_vec(&plan, 65536).unwrap(), Text { bytes: example("worked.terms"), odd_literals: 0 });
}

/// u8 256, as a binding and as an arm.
#[test]
fn odd_literals() {
    let plan = String::from_utf8(example("worked.plan")).unwrap().replace("00007 -", "00100 -");
    let text = emit_to_vec(plan.as_bytes(), 65536).unwrap();
    assert_eq!(text.odd_literals, 2);
    assert_eq!(String::from_utf8(text.bytes).unwrap().matches("0x0_u8").count(), 2);
    assert_eq!(emit_terms_to_vec(plan.as_bytes(), 65536).unwrap().odd_literals, 2);
    let mut out = [0; 65536];
    assert_eq!(emit(plan.as_bytes(), &mut out).unwrap().odd_literals, 2);
}

#[test]
fn room() {
    let plan = example("worked.plan");
    let text = example("worked.whole");
    for length in [text.len(), text.len() + 1, text.len() + 100] {
        let mut out = vec![0xa5; length];
        let emitted = emit(&plan, &mut out).unwrap();
        assert_eq!(emitted.length, text.len());
        assert_eq!(&out[..text.len()], &text[..]);
        assert!(out[text.len()..].iter().all(|&byte| byte == 0xa5));
    }
    for length in [0, 1, text.len() - 1] {
        let mut out = vec![0xa5; length];
        assert_eq!(emit(&plan, &mut out).unwrap_err().number(), 11);
        assert!(out.iter().all(|&byte| byte == 0xa5));
    }
}

#[test]
fn refusals() {
    let mut out = [0xa5; 64];
    assert_eq!(emit(&[b' '; 65537], &mut out).unwrap_err().number(), 1);
    assert_eq!(emit(b"\t", &mut out).unwrap_err().number(), 2);
    let refusal = emit_terms(b"", &mut out).unwrap_err();
    assert_eq!(refusal.number(), 3);
    assert_eq!(refusal.to_string(), "refused 3: a table, row, level or value is not as laid out");
    assert!(out.iter().all(|&byte| byte == 0xa5));
}

#[test]
fn grows_to_the_limit() {
    let plan = example("worked.plan");
    let length = example("worked.whole").len();
    assert_eq!(emit_to_vec(&plan, length).unwrap().bytes.len(), length);
    assert_eq!(emit_to_vec(&plan, length - 1).unwrap_err().number(), 11);
}

#[test]
fn many_threads() {
    let plan = example("worked.plan");
    let text = example("worked.whole");
    std::thread::scope(|scope| {
        for _ in 0..4 {
            scope.spawn(|| assert_eq!(emit_to_vec(&plan, 65536).unwrap().bytes, text));
        }
    });
}
