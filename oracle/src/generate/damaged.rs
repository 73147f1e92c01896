//! Damaged plans: single faults, several at once, and plans with bytes, lines or words changed
//! at random. Some of the last stay accepted.

use crate::environment::Sizes;
use crate::faults::{Change, FAULTS, Fault};
use crate::random::Random;
use crate::rows::{Document, Plan};
use crate::texts::Style;
use crate::valid::{self, MOST_BYTES, SMALL};

// Only the report reads what else than bytes is here.
#[cfg_attr(not(coverage), allow(dead_code))]
pub struct Damaged {
    pub bytes: Vec<u8>,
    /// The faults' names; the changes at random have one each too.
    pub faults: Vec<&'static str>,
    /// The refusal that the faults are made for, 0 for none; not known for changes at random.
    pub expected: Option<u8>,
}

const BASE: Sizes = Sizes {
    files: (0, 2),
    syms: (1, 8),
    positions: (1, 3),
    types: (1, 5),
    variants: (0, 6),
    terms: (1, 5),
    generated: (1, 3),
    rows: (1, 14),
    multi: 50,
    style: Style { odd: 6, long: 0 },
    ..SMALL
};

pub fn damaged(random: &mut Random) -> Damaged {
    let document = base(random).tables();
    if random.chance(22) {
        return at_random(random, document.bytes());
    }
    let faults = faults(random);
    with_faults(random, document, &faults)
}

fn base(random: &mut Random) -> Plan {
    match random.below(40) {
        0 => valid::plan(random, "large"),
        1 => valid::plan(random, "limits"),
        2 => valid::plan(random, "deep"),
        3..=6 => valid::plan(random, "small"),
        _ => valid::sized(random, &BASE),
    }
}

/// One fault, or several of different numbers: two of one number could make up for each other.
/// The highest number comes first: then a later fault can hide an earlier one, which has a higher
/// number, but not the other way round.
fn faults(random: &mut Random) -> Vec<&'static Fault> {
    let count = if random.chance(55) {
        1
    } else {
        random.range(2, 4)
    };
    let mut faults: Vec<&Fault> = (0..count).map(|_| fault(random, count == 1)).collect();
    faults.sort_by_key(|fault| std::cmp::Reverse(fault.number));
    faults.dedup_by_key(|fault| fault.number);
    faults
}

/// Puts those faults into the plan that it has a place for: first those of rows, then those of
/// bytes, which have the lower numbers.
fn with_faults(random: &mut Random, mut document: Document, faults: &[&Fault]) -> Damaged {
    let mut applied: Vec<&Fault> = Vec::new();
    for fault in faults {
        if let Change::Rows(change) = fault.change {
            let mut changed = document.clone();
            if change(random, &mut changed).is_some() {
                document = changed;
                applied.push(fault);
            }
        }
    }
    let mut bytes = document.bytes();
    for fault in faults {
        if let Change::Bytes(change) = fault.change {
            if change(random, &mut bytes).is_some() {
                applied.push(fault);
            }
        }
    }
    let lowest = applied.iter().map(|fault| fault.number).min().unwrap_or(0);
    Damaged {
        faults: applied.iter().map(|fault| fault.name).collect(),
        expected: Some(if bytes.len() > MOST_BYTES { 1 } else { lowest }),
        bytes,
    }
}

/// How often each refusal number is drawn for a single fault: 3 and 5 have the most sides.
const ALONE: [usize; 11] = [16, 3, 5, 22, 13, 17, 12, 9, 16, 9, 12];

/// How often for one of several faults: the lowest of them decides, so the high ones are drawn
/// more often.
const TOGETHER: [usize; 11] = [0, 2, 3, 7, 9, 11, 13, 14, 18, 14, 16];

fn fault(random: &mut Random, alone: bool) -> &'static Fault {
    let number = random.weighted(if alone { &ALONE } else { &TOGETHER }) as u8;
    let faults: Vec<&Fault> = FAULTS
        .iter()
        .filter(|fault| fault.number == number)
        .collect();
    *random.pick(&faults)
}

type AtRandom = (&'static str, fn(&mut Random, &mut Vec<u8>));

const AT_RANDOM: &[AtRandom] = &[
    ("bit turned", |random, plan| {
        let at = random.below(plan.len());
        plan[at] ^= 1 << random.below(8);
    }),
    ("byte replaced", |random, plan| {
        let at = random.below(plan.len());
        plan[at] = any_byte(random);
    }),
    ("byte inserted", |random, plan| {
        let at = random.below(plan.len());
        plan.insert(at, any_byte(random));
    }),
    ("byte left out", |random, plan| {
        let at = random.below(plan.len());
        plan.remove(at);
    }),
    ("digit changed", |random, plan| {
        let digits = positions(plan, |byte| byte.is_ascii_digit());
        if !digits.is_empty() {
            plan[*random.pick(&digits)] = b'0' + random.below(10) as u8;
        }
    }),
    ("line left out", |random, plan| {
        lines(plan, |lines| {
            let at = random.below(lines.len());
            lines.remove(at);
        })
    }),
    ("line doubled", |random, plan| {
        lines(plan, |lines| {
            let at = random.below(lines.len());
            let line = lines[at].clone();
            lines.insert(at, line);
        })
    }),
    ("lines exchanged", |random, plan| {
        lines(plan, |lines| {
            let (a, b) = (random.below(lines.len()), random.below(lines.len()));
            lines.swap(a, b);
        })
    }),
    ("neighbour lines exchanged", |random, plan| {
        lines(plan, |lines| {
            let at = random.below(lines.len());
            lines.swap(at, at.saturating_sub(1));
        })
    }),
    ("line copied elsewhere", |random, plan| {
        lines(plan, |lines| {
            let (from, to) = (random.below(lines.len()), random.below(lines.len()));
            let line = lines[from].clone();
            lines.insert(to, line);
        })
    }),
    ("words exchanged", |random, plan| {
        words(random, plan, |random, words| {
            let (a, b) = (random.below(words.len()), random.below(words.len()));
            words.swap(a, b);
        })
    }),
    ("word replaced", |random, plan| {
        words(random, plan, |random, words| {
            let at = random.below(words.len());
            let new = [
                "-", "0", "1", "2", "13", "_", "in", "some", "struct", "0,1", "0:1", "31", "",
            ];
            words[at] = random.pick(&new).as_bytes().to_vec();
        })
    }),
    ("number up or down", |random, plan| {
        number_changed(random, plan)
    }),
    ("cut short", |random, plan| {
        plan.truncate(random.range(1, plan.len()))
    }),
    ("two plans", |_, plan| {
        let again = plan.clone();
        plan.extend(again);
    }),
    ("CR for LF", |random, plan| {
        let feeds = positions(plan, |byte| byte == b'\n');
        if !feeds.is_empty() {
            plan[*random.pick(&feeds)] = b'\r';
        }
    }),
    ("space for LF", |random, plan| {
        let feeds = positions(plan, |byte| byte == b'\n');
        if !feeds.is_empty() {
            plan[*random.pick(&feeds)] = b' ';
        }
    }),
];

fn at_random(random: &mut Random, mut bytes: Vec<u8>) -> Damaged {
    let mut faults = Vec::new();
    for _ in 0..if random.chance(60) {
        1
    } else {
        random.range(2, 4)
    } {
        if bytes.is_empty() {
            break;
        }
        let (name, change) = random.pick(AT_RANDOM);
        change(random, &mut bytes);
        faults.push(*name);
    }
    Damaged {
        bytes,
        faults,
        expected: None,
    }
}

fn any_byte(random: &mut Random) -> u8 {
    match random.below(4) {
        0 => random.below(256) as u8,
        1 => *random.pick(b" \n-_,:0"),
        _ => (0x20 + random.below(0x5f)) as u8,
    }
}

fn positions(plan: &[u8], wanted: impl Fn(u8) -> bool) -> Vec<usize> {
    (0..plan.len()).filter(|&at| wanted(plan[at])).collect()
}

fn lines(plan: &mut Vec<u8>, change: impl FnOnce(&mut Vec<Vec<u8>>)) {
    let mut lines: Vec<Vec<u8>> = plan
        .split_inclusive(|&byte| byte == b'\n')
        .map(<[u8]>::to_vec)
        .collect();
    change(&mut lines);
    *plan = lines.concat();
}

/// Changes the words of one line.
fn words(
    random: &mut Random,
    plan: &mut Vec<u8>,
    change: impl FnOnce(&mut Random, &mut Vec<Vec<u8>>),
) {
    let mut lines: Vec<Vec<u8>> = plan
        .split(|&byte| byte == b'\n')
        .map(<[u8]>::to_vec)
        .collect();
    let at = random.below(lines.len());
    let mut words: Vec<Vec<u8>> = lines[at]
        .split(|&byte| byte == b' ')
        .map(<[u8]>::to_vec)
        .collect();
    change(random, &mut words);
    lines[at] = words.join(&b' ');
    *plan = lines.join(&b'\n');
}

/// A number goes up or down by one or two, wherever it stands.
fn number_changed(random: &mut Random, plan: &mut Vec<u8>) {
    let starts = positions(plan, |byte| byte.is_ascii_digit());
    if starts.is_empty() {
        return;
    }
    let mut start = *random.pick(&starts);
    while start > 0 && plan[start - 1].is_ascii_digit() {
        start -= 1;
    }
    let length = plan[start..]
        .iter()
        .take_while(|byte| byte.is_ascii_digit())
        .count();
    let digits = String::from_utf8_lossy(&plan[start..start + length]).into_owned();
    let Ok(number) = digits.parse::<u64>() else {
        return;
    };
    let changed = match random.below(4) {
        0 => number.saturating_sub(1),
        1 => number.saturating_sub(2),
        2 => number.saturating_add(1),
        _ => number.saturating_add(2),
    };
    plan.splice(start..start + length, changed.to_string().into_bytes());
}
