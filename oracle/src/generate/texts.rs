//! Texts of `file`, `sym` and `pos` rows, and integer values.

use crate::random::Random;

const WORDS: &[&str] = &[
    "add",
    "sub",
    "Inst",
    "Value",
    "Reg",
    "lower",
    "x64_add",
    "iconst",
    "is_zero",
    "operand",
    "simplify",
    "GprMem",
    "Imm64",
    "u8_from",
    "Type",
    "pair",
    "first",
    "second",
    "dst",
    "src",
    "make",
    "value_type",
    "Opcode",
    "flags",
    "MemFlags",
    "y",
    "T",
];

const FILES: &[&str] = &[
    "a.isle",
    "src/prelude.isle",
    "src/isa/x64/inst.isle",
    "opt/icmp.isle",
];

/// Texts that an emitter, a reader or a taker-off of closures may take for something else.
pub const ODD: &[&str] = &[
    "\"",
    "\\",
    "\\\\",
    "\\\"",
    "a\"b",
    "\"\"",
    "say \"hi\"",
    "C:\\isle\\new",
    "\\n",
    "\\u{7f}",
    "'",
    "`",
    "{",
    "}",
    "{}",
    "{{}}",
    "{0}",
    "{:?}",
    "${x}",
    "%s",
    "#",
    "\"#",
    "r#\"",
    "//",
    "/*",
    "*/",
    "///",
    "_",
    "_ => {}",
    "}",
    "    }",
    "return;",
    "return true;",
    "    return true;",
    " ",
    "  ",
    "    ",
    " a",
    "a ",
    " a b ",
    "-",
    "--",
    "0",
    "00",
    "1,2",
    "1:2",
    ",",
    ":",
    "in",
    "some",
    "~",
    "!",
    "false",
    "true",
    "None",
    "v0",
    "v1",
    "arg0",
    "&v1",
    "ctx",
    "self",
    "nopragmas log split threshold",
    "file",
    "sym",
    "pos",
    "kind name extern nodebug pos list",
    "type name shape list",
    "name pos ret multi partial ctor xtor infallible list",
    "term",
    "kind a b list",
    "level kind a b list",
    "0 return 0 0 -",
    "arg 0 - -",
    "if (|| -> bool {",
    "    if (|| -> bool {",
    "if (|| -> bool",
    "|| -> bool",
    ")() { return true; } // __isle_arm_0",
    ")() { return; } // __isle_arm_0",
    "__isle_arm_0",
    ")() { return true; } // __isle_arm_1",
    "        false",
    "    })() { return; }",
    "if returns.len() >= MAX_ISLE_RETURNS { return true; }",
    "if returns.len() >= MAX_ISLE_RETURNS { return; }",
    "// Rule at a.isle line 5.",
    "// Generated as internal constructor for term pick.",
    "pub fn constructor_pick<C: Context>(",
    "unreachable!(\"no rule matched\")",
    "returns.extend(Some(v0));",
    "let v1 = v1;",
    "Some(v1)",
    ".clone()",
    "0x7_u8",
    "refused 3",
];

/// How a plan's texts are drawn.
#[derive(Clone, Copy)]
pub struct Style {
    /// Percentage of texts that are odd.
    pub odd: usize,
    /// Percentage of texts that are long.
    pub long: usize,
}

fn printable(random: &mut Random, length: usize) -> String {
    (0..length)
        .map(|_| (0x20 + random.below(0x5f)) as u8 as char)
        .collect()
}

fn odd(random: &mut Random) -> String {
    match random.below(10) {
        0 => printable(random, 1),
        1 => {
            let length = random.range(2, 24);
            printable(random, length)
        }
        2 => format!("{}{}", random.pick(ODD), random.pick(ODD)),
        _ => random.pick(ODD).to_string(),
    }
}

fn long(random: &mut Random) -> String {
    match random.below(3) {
        // Every byte that a plan may hold.
        0 => (0x20..=0x7e_u8).map(char::from).collect(),
        1 => {
            let length = random.range(100, 600);
            printable(random, length)
        }
        _ => random
            .pick(&["\"", "\\", "a", " ", "{"])
            .repeat(random.range(50, 300)),
    }
}

fn text(random: &mut Random, style: Style, plain: fn(&mut Random) -> String) -> String {
    if random.chance(style.long) {
        long(random)
    } else if random.chance(style.odd) {
        odd(random)
    } else {
        plain(random)
    }
}

pub fn file(random: &mut Random, style: Style) -> String {
    text(random, style, |random| random.pick(FILES).to_string())
}

pub fn sym(random: &mut Random, style: Style) -> String {
    text(random, style, |random| {
        let word = random.pick(WORDS);
        if random.chance(25) {
            word.to_string()
        } else {
            format!("{word}{}", random.below(400))
        }
    })
}

pub fn pos(random: &mut Random, style: Style) -> String {
    text(random, style, |random| {
        format!("{} line {}", random.pick(FILES), random.range(1, 4000))
    })
}

/// Powers of two whose neighbourhood holds the bounds of the integer types.
const BOUNDARIES: &[u32] = &[7, 8, 15, 16, 31, 32, 63, 64, 127];

/// A boundary value, or one of a random number of bits.
pub fn value(random: &mut Random) -> i128 {
    match random.below(10) {
        0 => *random.pick(&[0, 1, -1, 2, 10, 255, 256]),
        1..=5 => {
            let power = 1_u128 << random.pick(BOUNDARIES);
            let near = power.wrapping_add(*random.pick(&[u128::MAX, 0, 1]));
            let sign = random.chance(50);
            (if sign { near.wrapping_neg() } else { near }) as i128
        }
        6 => random.below(300) as i128,
        _ => {
            let bits = ((random.next() as u128) << 64) | random.next() as u128;
            (bits as i128) >> random.below(128)
        }
    }
}
