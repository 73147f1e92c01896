//! Faults of a block's rows: of their levels, refusal 3, and of their steps, refusals 8 to 10.

use crate::cells::*;
use crate::faults_limits::nest;
use crate::faults_values::{WRAPPING, digits, put};
use crate::random::Random;
use crate::rows::Document;

/// A generated term's block table with room for more rows, and with a binding to name: one is
/// added if there is none.
pub fn any_block(random: &mut Random, document: &mut Document) -> Option<usize> {
    let groups = (document.tables.len() - FIRST_TERM) / 3;
    if groups == 0 || document.tables.len() != FIRST_TERM + 3 * groups {
        return None;
    }
    let block = FIRST_TERM + 3 * random.below(groups) + 2;
    if count(document, block) > 1900 || count(document, POS) == 0 {
        return None;
    }
    if document.tables[block - 1].rows.is_empty() {
        document.tables[block - 1]
            .rows
            .push("bool 0 - -".to_string());
    }
    Some(block)
}

pub fn insert_first(document: &mut Document, block: usize, rows: &[&str]) {
    let rows = rows.iter().map(|row| row.to_string());
    document.tables[block].rows.splice(0..0, rows);
}

pub fn first_level(random: &mut Random, document: &mut Document) -> Option<()> {
    let block = any_block(random, document)?;
    insert_first(
        document,
        block,
        &[*random.pick(&["1 equal 0 0 -", "63 equal 0 0 -", "64 equal 0 0 -"])],
    );
    Some(())
}

pub fn level_jumps(random: &mut Random, document: &mut Document) -> Option<()> {
    let block = any_block(random, document)?;
    let far = format!("{} equal 0 0 -", random.pick(&[2, 3, 63, 64, 65, 256]));
    let arm = format!("{} bool 0 - -", random.pick(&[2, 64]));
    match random.below(3) {
        0 => insert_first(document, block, &["0 equal 0 0 -", &far]),
        1 => insert_first(document, block, &["0 match 0 - -", &arm]),
        _ => insert_first(
            document,
            block,
            &["0 match 0 - -", "1 bool 0 - -", "3 equal 0 0 -"],
        ),
    }
    Some(())
}

pub fn level_wrong(random: &mut Random, document: &mut Document) -> Option<()> {
    put(
        random,
        document,
        |cell| cell == Cell::Level,
        &["-", "00", "01", "063", "", "_", "-1", "x"],
    )
}

pub fn level_of_many_digits(random: &mut Random, document: &mut Document) -> Option<()> {
    let many = digits(random);
    let words = [&[many.as_str()][..], &WRAPPING[..]].concat();
    put(random, document, |cell| cell == Cell::Level, &words)
}

pub fn step_below_match(random: &mut Random, document: &mut Document) -> Option<()> {
    let block = any_block(random, document)?;
    let step = *random.pick(&[
        "1 equal 0 0 -",
        "1 return 0 0 -",
        "1 match 0 - -",
        "1 loop 0 - -",
    ]);
    if random.chance(50) {
        insert_first(document, block, &["0 match 0 - -", step]);
    } else {
        insert_first(document, block, &["0 match 0 - -", "1 bool 0 - -", step]);
    }
    Some(())
}

pub fn arm_below_no_match(random: &mut Random, document: &mut Document) -> Option<()> {
    let block = any_block(random, document)?;
    match random.below(4) {
        0 => insert_first(document, block, &["0 bool 0 - -"]),
        1 => insert_first(document, block, &["0 equal 0 0 -", "1 some - - 0"]),
        2 => insert_first(document, block, &["0 loop 0 - -", "1 prim 0 - -"]),
        _ => insert_first(
            document,
            block,
            &["0 match 0 - -", "1 bool 0 - -", "2 bool 1 - -"],
        ),
    }
    Some(())
}

pub fn row_below_return(random: &mut Random, document: &mut Document) -> Option<()> {
    let block = any_block(random, document)?;
    let row = *random.pick(&[
        "1 equal 0 0 -",
        "1 return 0 0 -",
        "1 bool 0 - -",
        "1 match 0 - -",
    ]);
    insert_first(document, block, &["0 return 0 0 -", row]);
    Some(())
}

pub fn shape_below_63(random: &mut Random, document: &mut Document) -> Option<()> {
    nest(random, document, 66)?;
    let place = find(random, document, |document, place, cell| {
        cell == Cell::Level && get(document, place) == "66"
    })?;
    let (table, row, _) = place;
    let fault = *random.pick(&[
        "67 bool 0 - -",
        "67 some - - 0",
        "69 equal 0 0 -",
        "66 equal 0 - -",
    ]);
    document.tables[table]
        .rows
        .insert(row + 1, fault.to_string());
    Some(())
}

/// A block of a term of iterator kind, or not.
pub fn block_of(random: &mut Random, document: &mut Document, multi: bool) -> Option<usize> {
    let block = any_block(random, document)?;
    let term = term_of(document, block)?;
    let flag = if multi { "1" } else { "0" };
    (get(document, (TERMS, term, 3)) == flag).then_some(block)
}

pub fn return_not_last(random: &mut Random, document: &mut Document) -> Option<()> {
    let block = block_of(random, document, false)?;
    insert_first(document, block, &["0 return 0 0 -", "0 equal 0 0 -"]);
    Some(())
}

pub fn two_returns(random: &mut Random, document: &mut Document) -> Option<()> {
    let block = block_of(random, document, false)?;
    insert_first(document, block, &["0 return 0 0 -", "0 return 0 0 -"]);
    Some(())
}

pub fn two_returns_inside(random: &mut Random, document: &mut Document) -> Option<()> {
    let block = block_of(random, document, false)?;
    match random.below(2) {
        0 => insert_first(
            document,
            block,
            &["0 equal 0 0 -", "1 return 0 0 -", "1 return 0 0 -"],
        ),
        _ => insert_first(
            document,
            block,
            &[
                "0 match 0 - -",
                "1 bool 0 - -",
                "2 return 0 0 -",
                "2 equal 0 0 -",
            ],
        ),
    }
    Some(())
}

/// The number of an `iter` binding, added if there is none.
pub fn iterator(document: &mut Document, bindings: usize) -> Option<usize> {
    let is_iterator = |row: &String| row.starts_with("iter ");
    if let Some(row) = document.tables[bindings].rows.iter().position(is_iterator) {
        return Some(row);
    }
    let row = count(document, bindings);
    if row >= 1024 {
        return None;
    }
    document.tables[bindings]
        .rows
        .push("iter - - 0".to_string());
    Some(row)
}

pub fn loop_in_other_term(random: &mut Random, document: &mut Document) -> Option<()> {
    let block = block_of(random, document, false)?;
    let result = iterator(document, block - 1)?;
    let first = format!("0 loop {result} - -");
    let inside = format!("1 loop {result} - -");
    match random.below(2) {
        0 => insert_first(document, block, &[&first]),
        _ => insert_first(document, block, &["0 equal 0 0 -", &inside]),
    }
    Some(())
}

/// The number of a binding that is no `iter`.
pub fn no_iterator(document: &Document, bindings: usize) -> Option<usize> {
    document.tables[bindings]
        .rows
        .iter()
        .position(|row| !row.starts_with("iter "))
}

pub fn loop_on_no_iter_in_other_term(random: &mut Random, document: &mut Document) -> Option<()> {
    let block = block_of(random, document, false)?;
    let result = no_iterator(document, block - 1)?;
    insert_first(document, block, &[&format!("0 loop {result} - -")]);
    Some(())
}

/// Refusal 8 in a later term goes before 9 in an earlier one.
pub fn later_returns(random: &mut Random, document: &mut Document) -> Option<()> {
    let later = block_of(random, document, false)?;
    let earlier = later.checked_sub(3).filter(|&table| table >= FIRST_TERM)?;
    if document.tables[earlier - 1].rows.is_empty() {
        document.tables[earlier - 1]
            .rows
            .push("bool 0 - -".to_string());
    }
    insert_first(document, earlier, &["0 match 0 - -"]);
    insert_first(document, later, &["0 return 0 0 -", "0 return 0 0 -"]);
    Some(())
}

pub fn match_without_arms(random: &mut Random, document: &mut Document) -> Option<()> {
    let block = any_block(random, document)?;
    insert_first(document, block, &["0 match 0 - -"]);
    Some(())
}

pub fn match_without_arms_inside(random: &mut Random, document: &mut Document) -> Option<()> {
    let block = any_block(random, document)?;
    match random.below(2) {
        0 => insert_first(document, block, &["0 equal 0 0 -", "1 match 0 - 0"]),
        _ => insert_first(
            document,
            block,
            &["0 match 0 - -", "1 bool 0 - -", "2 match 0 - -"],
        ),
    }
    Some(())
}

pub fn match_without_arms_last(random: &mut Random, document: &mut Document) -> Option<()> {
    let block = block_of(random, document, true)?;
    document.tables[block]
        .rows
        .push("0 match 0 - -".to_string());
    Some(())
}

pub fn loop_on_no_iter(random: &mut Random, document: &mut Document) -> Option<()> {
    let block = block_of(random, document, true)?;
    let result = no_iterator(document, block - 1)?;
    insert_first(document, block, &[&format!("0 loop {result} - -")]);
    Some(())
}

pub fn loop_on_no_iter_inside(random: &mut Random, document: &mut Document) -> Option<()> {
    let block = block_of(random, document, true)?;
    let result = no_iterator(document, block - 1)?;
    insert_first(
        document,
        block,
        &[
            "0 equal 0 0 -",
            &format!("1 loop {result} - -"),
            "2 return 0 0 -",
        ],
    );
    Some(())
}
