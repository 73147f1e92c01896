//! Faults of what a row's values name, and of its sources: refusals 5 to 7.

use crate::cells::*;
use crate::faults_accepted::terms_named;
use crate::faults_levels::{any_block, insert_first};
use crate::faults_values::{WRAPPING, change_value, digits, find_list, put};
use crate::random::Random;
use crate::rows::Document;

pub fn find_row(random: &mut Random, document: &Document) -> Option<(Place, usize)> {
    let place = find(random, document, |_, _, cell| matches!(cell, Cell::Row(_)))?;
    match cells(document, place.0, place.1)[place.2] {
        Cell::Row(rows) => Some((place, rows)),
        _ => None,
    }
}

pub fn row_one_beyond(random: &mut Random, document: &mut Document) -> Option<()> {
    let (place, rows) = find_row(random, document)?;
    set(document, place, &rows.to_string());
    Some(())
}

pub fn row_far_beyond(random: &mut Random, document: &mut Document) -> Option<()> {
    let (place, rows) = find_row(random, document)?;
    let beyond = rows + random.range(1, 5000);
    let mut words = WRAPPING.to_vec();
    let beyond = beyond.to_string();
    words.extend([beyond.as_str(); 4]);
    set(document, place, *random.pick(&words));
    Some(())
}

pub fn row_of_many_digits(random: &mut Random, document: &mut Document) -> Option<()> {
    let (place, _) = find_row(random, document)?;
    let many = digits(random);
    set(document, place, &many);
    Some(())
}

pub fn function_beyond(random: &mut Random, document: &mut Document) -> Option<()> {
    let beyond = count(document, SYM).to_string();
    let many = digits(random);
    let words = [
        &[beyond.as_str(), beyond.as_str(), &many][..],
        &WRAPPING[..],
    ]
    .concat();
    put(random, document, |cell| cell == Cell::Function, &words)
}

/// How many rows a list's values can name; the lower one for named fields.
pub fn list_count(document: &Document, place: Place) -> usize {
    match cells(document, place.0, place.1)[place.2] {
        Cell::NamedFields => type_count(document).max(count(document, SYM)),
        Cell::Types => type_count(document),
        Cell::Sources => count(document, place.0),
        _ => count(document, place.0 - 1),
    }
}

pub fn list_value_beyond(random: &mut Random, document: &mut Document) -> Option<()> {
    let place = find_list(random, document)?;
    let beyond = list_count(document, place);
    let many = digits(random);
    let word = match random.below(4) {
        0 => many,
        1 => random.pick(&WRAPPING).to_string(),
        _ => beyond.to_string(),
    };
    change_value(random, document, place, |_| word.clone());
    Some(())
}

pub fn list_value_beyond_and_length(random: &mut Random, document: &mut Document) -> Option<()> {
    let place = find(random, document, |document, place, cell| {
        matches!(cell, Cell::Sources | Cell::ArmBindings) && values(document, place).len() < 32
    })?;
    let mut list = values(document, place);
    list.push((list_count(document, place) + random.below(3)).to_string());
    set(document, place, &list.join(","));
    Some(())
}

pub fn type_of_wrong_sort(random: &mut Random, document: &mut Document) -> Option<()> {
    let place = find(random, document, |document, (table, row, column), cell| {
        let kind = matches!(part(table), Some(1 | 2)).then(|| words(document, table, row));
        let kind = kind.and_then(|words| words.get(column.wrapping_sub(1)).cloned());
        matches!(cell, Cell::Row(_)) && matches!(kind.as_deref(), Some("variant" | "struct"))
    })?;
    let is_variant = get(document, (place.0, place.1, place.2 - 1)) == "variant";
    let wrong = |ty: &usize| {
        let kind = type_kind(document, *ty);
        if is_variant {
            kind != "enum"
        } else {
            matches!(kind.as_str(), "enum" | "prim" | "builtin")
        }
    };
    let types: Vec<usize> = (0..type_count(document)).filter(wrong).collect();
    set(document, place, &random.pick(&types).to_string());
    Some(())
}

pub fn variant_of_no_enum(random: &mut Random, document: &mut Document) -> Option<()> {
    let rows = count(document, VARIANTS);
    if rows == 0 {
        return None;
    }
    let types: Vec<usize> = (0..type_count(document))
        .filter(|&ty| type_kind(document, ty) != "enum")
        .collect();
    let place = (VARIANTS, random.below(rows), 0);
    set(document, place, &random.pick(&types).to_string());
    Some(())
}

pub fn needed_absent(
    random: &mut Random,
    document: &mut Document,
    kind: &str,
    column: usize,
) -> Option<()> {
    let mut used = terms_named(document, kind);
    used.retain(|&term| term < count(document, TERMS));
    if used.is_empty() {
        return None;
    }
    set(document, (TERMS, *random.pick(&used), column), "-");
    Some(())
}

pub fn needed_ctor_absent(random: &mut Random, document: &mut Document) -> Option<()> {
    needed_absent(random, document, "construct", 5)
}

pub fn needed_xtor_absent(random: &mut Random, document: &mut Document) -> Option<()> {
    needed_absent(random, document, "extract", 6)
}

pub fn unused_term_beyond(random: &mut Random, document: &mut Document) -> Option<()> {
    let (syms, positions) = (count(document, SYM), count(document, POS));
    if syms == 0 || positions == 0 || count(document, TERMS) >= 512 {
        return None;
    }
    let types = type_count(document);
    document.tables[TERMS].rows.push(match random.below(5) {
        0 => format!("{syms} 0 0 0 0 - - 0 -"),
        1 => format!("0 {positions} 0 0 0 - - 0 -"),
        2 => format!("0 0 {types} 0 0 - - 0 -"),
        3 => format!("0 0 0 0 0 {syms} - 0 -"),
        _ => format!("0 0 0 0 0 - - 0 0,{types}"),
    });
    Some(())
}

pub fn argument_beyond(random: &mut Random, document: &mut Document) -> Option<()> {
    let block = any_block(random, document)?;
    let term = term_of(document, block)?;
    let arguments = values(document, (TERMS, term, 8)).len();
    if count(document, block - 1) >= 1024 {
        return None;
    }
    let index = arguments + random.below(40);
    document.tables[block - 1]
        .rows
        .push(format!("arg {index} - -"));
    Some(())
}

pub fn source_more(random: &mut Random, document: &mut Document) -> Option<()> {
    let place = find(random, document, |document, place, cell| {
        cell == Cell::Sources && values(document, place).len() < 32
    })?;
    let mut list = values(document, place);
    list.push("0".to_string());
    set(document, place, &list.join(","));
    Some(())
}

pub fn source_less(random: &mut Random, document: &mut Document) -> Option<()> {
    let place = find(random, document, |document, place, cell| {
        cell == Cell::Sources && get(document, place) != "-"
    })?;
    shorten(document, place);
    Some(())
}

pub fn shorten(document: &mut Document, place: Place) {
    let mut list = values(document, place);
    list.pop();
    let list = if list.is_empty() {
        "-".to_string()
    } else {
        list.join(",")
    };
    set(document, place, &list);
}

pub fn arm_binding_more(random: &mut Random, document: &mut Document) -> Option<()> {
    let place = find(random, document, |document, place, cell| {
        cell == Cell::ArmBindings && values(document, place).len() < 32
    })?;
    let mut list = values(document, place);
    list.push(if random.chance(50) {
        "_".to_string()
    } else {
        "0".to_string()
    });
    set(document, place, &list.join(","));
    Some(())
}

pub fn arm_binding_less(random: &mut Random, document: &mut Document) -> Option<()> {
    let place = find(random, document, |document, place, cell| {
        cell == Cell::ArmBindings && get(document, place) != "-"
    })?;
    shorten(document, place);
    Some(())
}

pub fn underscore_in_constant_arm(random: &mut Random, document: &mut Document) -> Option<()> {
    let block = any_block(random, document)?;
    let arm = *random.pick(&[
        "1 bool 0 - _",
        "1 bool 1 - _,_",
        "1 int 1 00000000000000000000000000000007 _",
    ]);
    insert_first(document, block, &["0 match 0 - -", arm]);
    Some(())
}

pub fn unused_binding_length(random: &mut Random, document: &mut Document) -> Option<()> {
    let block = any_block(random, document)?;
    if count(document, block - 1) >= 1024 || count(document, SYM) == 0 {
        return None;
    }
    let rows = [
        "bool 0 - 0",
        "int 1 00000000000000000000000000000007 0",
        "prim 0 - 0,0",
        "some - - -",
        "some - - 0,0",
        "iter - - -",
        "iter - - 0,0",
        "matchsome - - -",
        "matchtuple 0 - 0,0",
        "matchvariant 255 - -",
        "extractstruct 1 - 0,0,0",
    ];
    document.tables[block - 1]
        .rows
        .push(random.pick(&rows).to_string());
    Some(())
}

pub fn change_source(
    random: &mut Random,
    document: &mut Document,
    source: impl Fn(&mut Random, &Document, Place) -> Option<usize>,
) -> Option<()> {
    let place = find(random, document, |document, place, cell| {
        cell == Cell::Sources && get(document, place) != "-"
    })?;
    let source = source(random, document, place)?.to_string();
    change_value(random, document, place, |_| source.clone());
    Some(())
}

pub fn own_source(random: &mut Random, document: &mut Document) -> Option<()> {
    change_source(random, document, |_, _, (_, row, _)| Some(row))
}

pub fn later_source(random: &mut Random, document: &mut Document) -> Option<()> {
    change_source(random, document, |random, document, (table, row, _)| {
        let last = count(document, table) - 1;
        (row < last).then(|| random.range(row + 1, last))
    })
}

pub fn argument_twice(random: &mut Random, document: &mut Document) -> Option<()> {
    let place = find(random, document, |document, (table, row, column), _| {
        part(table) == Some(1) && column == 0 && get(document, (table, row, 0)) == "arg"
    })?;
    let again = document.tables[place.0].rows[place.1].clone();
    if count(document, place.0) >= 1024 {
        return None;
    }
    document.tables[place.0].rows.push(again);
    Some(())
}
