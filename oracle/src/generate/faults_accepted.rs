//! Changes that leave a plan accepted.

use crate::cells::*;
use crate::faults_tables::any_text;
use crate::faults_values::put;
use crate::random::Random;
use crate::rows::{Document, hexadecimal};
use crate::texts;

pub fn bind_order_of_32(random: &mut Random, document: &mut Document) -> Option<()> {
    let place = find(random, document, |_, _, cell| cell == Cell::BindOrder)?;
    let mut list = values(document, place);
    list.resize(32, "0".to_string());
    (count(document, place.0 - 1) > 0).then(|| set(document, place, &list.join(",")))
}

pub fn unused_type_of_32(random: &mut Random, document: &mut Document) -> Option<()> {
    if count(document, SYM) == 0 || count(document, POS) == 0 || count(document, TYPES) >= 243 {
        return None;
    }
    let row = match random.below(2) {
        0 => format!("tuple 0 0 0 0 {}", vec!["0"; 32].join(",")),
        _ => format!("named 0 0 0 0 {}", vec!["0:0"; 32].join(",")),
    };
    document.tables[TYPES].rows.push(row);
    Some(())
}

pub fn threshold_any(random: &mut Random, document: &mut Document) -> Option<()> {
    put(
        random,
        document,
        |cell| cell == Cell::Threshold,
        &["65535", "-", "0", "9", "10", "256"],
    )
}

pub fn field_255(random: &mut Random, document: &mut Document) -> Option<()> {
    put(
        random,
        document,
        |cell| cell == Cell::Field,
        &["255", "0", "199", "9", "10"],
    )
}

pub fn text_odd(random: &mut Random, document: &mut Document) -> Option<()> {
    let (table, row) = any_text(random, document)?;
    document.tables[table].rows[row] = random.pick(texts::ODD).to_string();
    Some(())
}

pub fn value_any(random: &mut Random, document: &mut Document) -> Option<()> {
    let word = hexadecimal(texts::value(random));
    put(random, document, |cell| cell == Cell::Value, &[&word])
}

/// Every flag but multi, which decides refusals 8 and 10.
pub fn flag_turned(random: &mut Random, document: &mut Document) -> Option<()> {
    let place = find(random, document, |_, (table, _, column), cell| {
        cell == Cell::Flag && (table, column) != (TERMS, 3)
    })?;
    let turned = if get(document, place) == "0" {
        "1"
    } else {
        "0"
    };
    set(document, place, turned);
    Some(())
}

pub fn no_generated_term(_: &mut Random, document: &mut Document) -> Option<()> {
    document.tables.truncate(FIRST_TERM);
    Some(())
}

/// The terms that a cell of the generated terms' rows names, by kind of the row.
pub fn terms_named(document: &Document, kind: &str) -> Vec<usize> {
    let mut terms = Vec::new();
    for table in FIRST_TERM..document.tables.len() {
        for row in 0..count(document, table) {
            let words = words(document, table, row);
            let named = match part(table) {
                Some(0) if kind == "construct" => words.first(),
                Some(1) if words[0] == kind => words.get(1),
                _ => None,
            };
            terms.extend(named.and_then(|term| term.parse::<usize>().ok()));
        }
    }
    terms
}

pub fn unused_functions_absent(_: &mut Random, document: &mut Document) -> Option<()> {
    for (kind, column) in [("construct", 5), ("extract", 6)] {
        let used = terms_named(document, kind);
        for term in (0..count(document, TERMS)).filter(|term| !used.contains(term)) {
            set(document, (TERMS, term, column), "-");
        }
    }
    Some(())
}

pub fn any_binding_in_block(random: &mut Random, document: &mut Document) -> Option<()> {
    let place = find(random, document, |document, (table, row, column), cell| {
        let is_block = part(table) == Some(2) && matches!(cell, Cell::Row(_));
        is_block && {
            let kind = get(document, (table, row, 1));
            matches!(kind.as_str(), "match" | "equal") || kind == "return" && column == 2
        }
    })?;
    let any = random.below(count(document, place.0 - 1));
    set(document, place, &any.to_string());
    Some(())
}
