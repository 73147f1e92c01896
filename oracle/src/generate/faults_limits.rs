//! Plans at the limits, which stay accepted, and beyond them: refusal 4, and 3 where a row beyond
//! the most is not laid out as it should be.

use crate::cells::*;
use crate::faults_levels::{any_block, insert_first};
use crate::random::Random;
use crate::rows::Document;

/// Rows that can be added to a table without a fault: a text, or a row that is there already.
pub fn fill(document: &mut Document, table: usize, wanted: usize) -> Option<()> {
    let row = match table {
        FILE..=POS => "x".to_string(),
        _ => document.tables[table].rows.last()?.clone(),
    };
    if count(document, table) >= wanted {
        return None;
    }
    document.tables[table].rows.resize(wanted, row);
    Some(())
}

pub fn fill_groups(document: &mut Document, wanted: usize) -> Option<()> {
    let length = document.tables.len();
    let groups = (length - FIRST_TERM) / 3;
    if groups == 0 || groups >= wanted || length != FIRST_TERM + 3 * groups {
        return None;
    }
    let last: Vec<_> = document.tables[length - 3..].to_vec();
    for _ in groups..wanted {
        document.tables.extend(last.iter().cloned());
    }
    Some(())
}

pub fn fill_bindings(random: &mut Random, document: &mut Document, wanted: usize) -> Option<()> {
    let block = any_block(random, document)?;
    if count(document, block - 1) >= wanted {
        return None;
    }
    document.tables[block - 1]
        .rows
        .resize(wanted, "bool 1 - -".to_string());
    Some(())
}

pub fn fill_block(random: &mut Random, document: &mut Document, wanted: usize) -> Option<()> {
    let block = any_block(random, document)?;
    let missing = wanted
        .checked_sub(count(document, block))
        .filter(|&missing| missing > 0)?;
    let rows = vec!["0 equal 0 0 -"; missing];
    insert_first(document, block, &rows);
    Some(())
}

/// Rows each below the one before, to this level.
pub fn nest(random: &mut Random, document: &mut Document, last: usize) -> Option<()> {
    let block = any_block(random, document)?;
    let mut rows = Vec::new();
    let mut level = 0;
    while level <= last {
        if level < last && random.chance(40) {
            rows.push(format!("{level} match 0 - -"));
            rows.push(format!("{} bool 0 - -", level + 1));
            level += 2;
        } else {
            rows.push(format!("{level} equal 0 0 -"));
            level += 1;
        }
    }
    let rows: Vec<&str> = rows.iter().map(String::as_str).collect();
    insert_first(document, block, &rows);
    Some(())
}

pub fn value_for(cell: Cell) -> &'static str {
    if cell == Cell::NamedFields {
        "0:0"
    } else {
        "0"
    }
}

pub fn lengthen_list(random: &mut Random, document: &mut Document, length: usize) -> Option<()> {
    let place = find(random, document, |_, _, cell| cell.is_list())?;
    let cell = cells(document, place.0, place.1)[place.2];
    let mut list = values(document, place);
    let more = if cell == Cell::ArmBindings && random.chance(50) {
        "_"
    } else {
        value_for(cell)
    };
    list.resize(length, more.to_string());
    set(document, place, &list.join(","));
    Some(())
}

pub fn list_of_33(random: &mut Random, document: &mut Document) -> Option<()> {
    lengthen_list(random, document, 33)
}

pub fn list_far_over(random: &mut Random, document: &mut Document) -> Option<()> {
    let length = random.range(34, 600);
    lengthen_list(random, document, length)
}

/// Rows beyond the most are still read for refusal 3.
pub fn layout_beyond_rows(random: &mut Random, document: &mut Document) -> Option<()> {
    let table = *random.pick(&[TYPES, VARIANTS, TERMS, FIRST_TERM + 1, FIRST_TERM + 2]);
    match table {
        TYPES => fill(document, TYPES, 250)?,
        VARIANTS => fill(document, VARIANTS, 1030)?,
        TERMS => fill(document, TERMS, 520)?,
        _ if document.tables.len() != FIRST_TERM + 3 => return None,
        table if part(table) == Some(1) => fill_bindings(random, document, 1030)?,
        _ => {
            fill_block(random, document, 2060)?;
            // The rows were put in front.
            document.tables[table]
                .rows
                .push("0 equal 0 0 -".to_string());
        }
    }
    let row = document.tables[table].rows.last_mut()?;
    row.push_str(*random.pick(&[" ", " -", "x", ","]));
    Some(())
}

pub fn layout_beyond_list(random: &mut Random, document: &mut Document) -> Option<()> {
    let length = random.range(33, 100);
    let place = find(random, document, |_, _, cell| cell.is_list())?;
    let cell = cells(document, place.0, place.1)[place.2];
    let mut list = values(document, place);
    list.resize(length, value_for(cell).to_string());
    list.push(random.pick(&["x", "00", "-", "", "0:", "_0"]).to_string());
    set(document, place, &list.join(","));
    Some(())
}

pub fn layout_beyond_terms(random: &mut Random, document: &mut Document) -> Option<()> {
    fill_groups(document, 66)?;
    match random.below(3) {
        0 => drop(document.tables.pop()),
        1 => document
            .tables
            .last_mut()?
            .rows
            .push("0 equal 0 0".to_string()),
        _ => document.tables.last_mut()?.names.push('x'),
    }
    Some(())
}
