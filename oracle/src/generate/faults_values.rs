//! Faults of layout in a row's values: refusal 3.

use crate::cells::*;
use crate::random::Random;
use crate::rows::Document;

/// Puts one of the words into a cell of the kind wanted.
pub fn put(
    random: &mut Random,
    document: &mut Document,
    wanted: impl Fn(Cell) -> bool,
    words: &[&str],
) -> Option<()> {
    let place = find(random, document, |_, _, cell| wanted(cell))?;
    set(document, place, *random.pick(words));
    Some(())
}

pub fn digits(random: &mut Random) -> String {
    let length = *random.pick(&[11, 20, 40, 400]);
    let first = random.range(1, 9).to_string();
    first
        + &(1..length)
            .map(|_| (b'0' + random.below(10) as u8) as char)
            .collect::<String>()
}

/// Numbers that are small again where 32 or 64 bits are kept of them.
pub const WRAPPING: [&str; 6] = [
    "4294967296",
    "4294967297",
    "18446744073709551616",
    "18446744073709551617",
    "340282366920938463463374607431768211456",
    "65536",
];

pub fn flag_wrong(random: &mut Random, document: &mut Document) -> Option<()> {
    let words = [
        "2",
        "-",
        "00",
        "01",
        "10",
        "true",
        "256",
        "4294967296",
        "_",
        "+1",
        "x",
    ];
    put(random, document, |cell| cell == Cell::Flag, &words)
}

pub fn threshold_wrong(random: &mut Random, document: &mut Document) -> Option<()> {
    let many = digits(random);
    let words = [
        "65536", "65537", "99999", "00", "01", "0256", "-1", "--", "_", "x", &many,
    ];
    let words = [&words[..], &WRAPPING[..]].concat();
    put(random, document, |cell| cell == Cell::Threshold, &words)
}

pub fn kind_unknown(random: &mut Random, document: &mut Document) -> Option<()> {
    let words = [
        "x", "", "Enum", "ENUM", "enumm", "enu", "-", "0", "some_", "primm", "stru", "_",
    ];
    put(random, document, |cell| cell == Cell::Kind, &words)
}

pub fn kind_of_another_table(random: &mut Random, document: &mut Document) -> Option<()> {
    let place = find(random, document, |_, _, cell| cell == Cell::Kind)?;
    let words: &[&str] = match (place.0, part(place.0)) {
        (TYPES, _) => &["struct", "variant", "bool", "int"],
        (VARIANTS, _) => &["enum", "prim", "struct"],
        (_, Some(1)) => &["match", "equal", "loop", "return", "enum", "unit"],
        _ => &[
            "arg",
            "extract",
            "construct",
            "iter",
            "matchsome",
            "matchtuple",
            "extractstruct",
        ],
    };
    set(document, place, *random.pick(words));
    Some(())
}

pub fn is_number(cell: Cell) -> bool {
    matches!(cell, Cell::Row(_) | Cell::Field | Cell::Level)
}

pub fn number_missing(random: &mut Random, document: &mut Document) -> Option<()> {
    put(random, document, is_number, &["-"])
}

pub fn number_leading_zero(random: &mut Random, document: &mut Document) -> Option<()> {
    let place = find(random, document, |_, _, cell| is_number(cell))?;
    let zeros = if random.chance(5) {
        "0".repeat(400)
    } else {
        "0".to_string()
    };
    let word = zeros + &get(document, place);
    set(document, place, &word);
    Some(())
}

pub fn no_number(random: &mut Random, document: &mut Document) -> Option<()> {
    let words = [
        "+1", "-1", "1.0", "0x1", "1e3", "a", "_", "1,", "1,2", "1:2", "--", "", "1-", "in",
    ];
    put(random, document, is_number, &words)
}

pub fn field_wrong(random: &mut Random, document: &mut Document) -> Option<()> {
    let many = digits(random);
    let words = ["256", "257", "300", "1000", "00", "0255", "-", &many];
    let words = [&words[..], &WRAPPING[..]].concat();
    put(random, document, |cell| cell == Cell::Field, &words)
}

pub fn value_wrong(random: &mut Random, document: &mut Document) -> Option<()> {
    let place = find(random, document, |_, _, cell| cell == Cell::Value)?;
    let good = get(document, place);
    let word = match random.below(9) {
        0 => good[1..].to_string(),
        1 => format!("0{good}"),
        2 => "0000000000000000000000000000000A".to_string(),
        3 => format!("0x{}", &good[2..]),
        4 => "-".to_string(),
        5 => format!("{}g", &good[1..]),
        6 => "7".to_string(),
        7 => format!("{}/", &good[1..]),
        _ => format!("-{}", &good[1..]),
    };
    set(document, place, &word);
    Some(())
}

pub fn unused_given(random: &mut Random, document: &mut Document) -> Option<()> {
    let words = [
        "0",
        "1",
        "_",
        "--",
        "00000000000000000000000000000007",
        "9999",
    ];
    put(random, document, |cell| cell == Cell::Unused, &words)
}

pub fn function_wrong(random: &mut Random, document: &mut Document) -> Option<()> {
    let words = [
        "out", "IN", "i", "inn", "_", "00", "01", "+0", "in,in", "--", "0:0",
    ];
    put(random, document, |cell| cell == Cell::Function, &words)
}

pub fn list_where_none(random: &mut Random, document: &mut Document) -> Option<()> {
    put(
        random,
        document,
        |cell| cell == Cell::NoList,
        &["0", "0,0", "0:0", "_", "--"],
    )
}

pub fn long_list_where_none(random: &mut Random, document: &mut Document) -> Option<()> {
    let long = vec!["0"; 33].join(",");
    put(random, document, |cell| cell == Cell::NoList, &[&long])
}

pub fn find_list(random: &mut Random, document: &Document) -> Option<Place> {
    find(random, document, |document, place, cell| {
        cell.is_list() && get(document, place) != "-"
    })
}

pub fn list_wrong(random: &mut Random, document: &mut Document) -> Option<()> {
    let place = find(random, document, |_, _, cell| cell.is_list())?;
    let list = get(document, place);
    let word = match random.below(9) {
        0 => format!("{list},"),
        1 => format!(",{list}"),
        2 => format!("{list},,{list}"),
        3 => format!("{list},-"),
        4 => format!("{list};"),
        5 => format!("-,{list}"),
        6 => String::new(),
        7 => format!("{list},+1"),
        _ => ",".to_string(),
    };
    set(document, place, &word);
    Some(())
}

/// Changes one value of a list; of a named field either number.
pub fn change_value(
    random: &mut Random,
    document: &mut Document,
    place: Place,
    change: impl Fn(&str) -> String,
) {
    let mut list = values(document, place);
    let at = random.below(list.len());
    list[at] = match list[at].split_once(':') {
        Some((name, ty)) if random.chance(50) => format!("{}:{ty}", change(name)),
        Some((name, ty)) => format!("{name}:{}", change(ty)),
        None => change(&list[at]),
    };
    set(document, place, &list.join(","));
}

pub fn list_leading_zero(random: &mut Random, document: &mut Document) -> Option<()> {
    let place = find_list(random, document)?;
    change_value(random, document, place, |value| format!("0{value}"));
    Some(())
}

pub fn list_other_shape(random: &mut Random, document: &mut Document) -> Option<()> {
    let place = find_list(random, document)?;
    let mut list = values(document, place);
    let at = random.below(list.len());
    list[at] = match list[at].split_once(':') {
        Some((name, ty)) => random
            .pick(&[name, ty, ":", "0:", ":0", "0:0:0", "0::0"])
            .to_string(),
        None => random.pick(&["0:0", "0:", ":0"]).to_string(),
    };
    set(document, place, &list.join(","));
    Some(())
}

pub fn underscore_in_list(random: &mut Random, document: &mut Document) -> Option<()> {
    let place = find(random, document, |_, _, cell| {
        matches!(
            cell,
            Cell::Sources | Cell::BindOrder | Cell::Types | Cell::NamedFields
        )
    })?;
    let mut list = values(document, place);
    match list.len() {
        0 => list.push("_".to_string()),
        n => list[random.below(n)] = "_".to_string(),
    }
    set(document, place, &list.join(","));
    Some(())
}
