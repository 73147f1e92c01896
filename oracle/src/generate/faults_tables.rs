//! Faults of a plan's bytes and tables: refusals 1 and 2, and 3 as far as it goes by whole lines.

use crate::cells::*;
use crate::random::Random;
use crate::rows::Document;
use crate::valid::MOST_BYTES;

/// Makes the first file's text longer, or adds one.
pub fn lengthen(plan: &mut Vec<u8>, length: usize, byte: u8) -> Option<()> {
    let at = plan.windows(6).position(|window| window == b"\nfile\n")? + 6;
    let more = length.checked_sub(plan.len())?;
    let is_row = plan.get(at).is_some_and(|&first| first != b'\n');
    if more == 0 || !is_row && more < 2 {
        return None;
    }
    let mut text = vec![byte; more];
    if !is_row {
        text[more - 1] = b'\n';
    }
    plan.splice(at..at, text);
    Some(())
}

pub fn over_length(random: &mut Random, plan: &mut Vec<u8>) -> Option<()> {
    let more = *random.pick(&[1, 1, 2, 10]);
    lengthen(plan, MOST_BYTES + more, b'a')
}

pub fn far_over_length(random: &mut Random, plan: &mut Vec<u8>) -> Option<()> {
    let more = random.range(100, 70_000);
    lengthen(plan, MOST_BYTES + more, b'~')
}

pub fn over_length_with_another_byte(random: &mut Random, plan: &mut Vec<u8>) -> Option<()> {
    lengthen(plan, MOST_BYTES + 1, *random.pick(&ANOTHER))
}

pub fn full_length(_: &mut Random, plan: &mut Vec<u8>) -> Option<()> {
    lengthen(plan, MOST_BYTES, b'b')
}

pub const ANOTHER: [u8; 9] = [0x00, 0x09, 0x0d, 0x7f, 0x80, 0xff, 0x0b, 0x1f, 0xc3];

pub fn another_byte_inserted(random: &mut Random, plan: &mut Vec<u8>) -> Option<()> {
    plan.insert(random.range(0, plan.len()), *random.pick(&ANOTHER));
    Some(())
}

pub fn another_byte_replacing(random: &mut Random, plan: &mut Vec<u8>) -> Option<()> {
    if plan.is_empty() {
        return None;
    }
    let at = random.below(plan.len());
    plan[at] = *random.pick(&ANOTHER);
    Some(())
}

pub fn carriage_returns(_: &mut Random, plan: &mut Vec<u8>) -> Option<()> {
    let crlf = |&byte: &u8| {
        if byte == b'\n' {
            vec![b'\r', b'\n']
        } else {
            vec![byte]
        }
    };
    *plan = plan.iter().flat_map(crlf).collect();
    plan.contains(&b'\r').then_some(())
}

pub fn another_byte_at_end(random: &mut Random, plan: &mut Vec<u8>) -> Option<()> {
    plan.push(*random.pick(&ANOTHER));
    Some(())
}

pub fn another_byte_alone(random: &mut Random, plan: &mut Vec<u8>) -> Option<()> {
    *plan = vec![*random.pick(&ANOTHER)];
    Some(())
}

pub fn last_byte_missing(_: &mut Random, plan: &mut Vec<u8>) -> Option<()> {
    plan.pop().map(|_| ())
}

pub fn last_line_cut(_: &mut Random, plan: &mut Vec<u8>) -> Option<()> {
    plan.pop()?;
    plan.pop().map(|_| ())
}

pub fn empty_line_more(_: &mut Random, plan: &mut Vec<u8>) -> Option<()> {
    plan.push(b'\n');
    Some(())
}

pub fn empty_line_first(_: &mut Random, plan: &mut Vec<u8>) -> Option<()> {
    plan.insert(0, b'\n');
    Some(())
}

pub fn empty_file(_: &mut Random, plan: &mut Vec<u8>) -> Option<()> {
    plan.clear();
    Some(())
}

pub fn one_line_feed(random: &mut Random, plan: &mut Vec<u8>) -> Option<()> {
    *plan = vec![b'\n'; random.range(1, 20)];
    Some(())
}

pub fn cut_in_last_table(random: &mut Random, plan: &mut Vec<u8>) -> Option<()> {
    let last = plan.len().checked_sub(3)?;
    let start = plan[..last].windows(2).rposition(|pair| pair == b"\n\n")? + 2;
    plan.truncate(random.range(start, plan.len() - 1).max(start + 1));
    Some(())
}

pub fn line_after_last(random: &mut Random, plan: &mut Vec<u8>) -> Option<()> {
    let line = *random.pick(&[
        "x\n",
        "term\n\n",
        "term\n",
        "-\n\n",
        "file\n\n",
        " \n\n",
        "term\n0\n\n",
    ]);
    plan.extend_from_slice(line.as_bytes());
    Some(())
}

pub fn any_table(random: &mut Random, document: &Document) -> usize {
    random.below(document.tables.len())
}

pub fn names_line_changed(random: &mut Random, document: &mut Document) -> Option<()> {
    let table = any_table(random, document);
    let names = &mut document.tables[table].names;
    let at = random.below(names.len());
    match random.below(5) {
        0 => names.insert(at, 'x'),
        1 => drop(names.remove(at)),
        2 => *names = names.to_uppercase(),
        3 => *names = names.replace(' ', "  ") + if names.contains(' ') { "" } else { "s" },
        _ => names.truncate(at),
    }
    Some(())
}

pub fn names_line_space(random: &mut Random, document: &mut Document) -> Option<()> {
    let table = any_table(random, document);
    let names = &mut document.tables[table].names;
    names.insert(if random.chance(50) { names.len() } else { 0 }, ' ');
    Some(())
}

/// The names line gives way to the table's first row, or to an empty line.
pub fn names_line_missing(random: &mut Random, document: &mut Document) -> Option<()> {
    let table = random.below(document.tables.len());
    let table = &mut document.tables[table];
    if table.rows.first().is_some_and(|row| *row == table.names) {
        return None;
    }
    table.names = if table.rows.is_empty() {
        String::new()
    } else {
        table.rows.remove(0)
    };
    Some(())
}

/// In a text table the second names line is a text.
pub fn names_line_twice(random: &mut Random, document: &mut Document) -> Option<()> {
    let table = any_table(random, document);
    if (FILE..=POS).contains(&table) {
        return None;
    }
    let names = document.tables[table].names.clone();
    document.tables[table].rows.insert(0, names);
    Some(())
}

pub fn table_missing(random: &mut Random, document: &mut Document) -> Option<()> {
    let table = any_table(random, document);
    document.tables.remove(table);
    Some(())
}

pub fn tables_exchanged(random: &mut Random, document: &mut Document) -> Option<()> {
    let (a, b) = (any_table(random, document), any_table(random, document));
    if document.tables[a].names == document.tables[b].names {
        return None;
    }
    document.tables.swap(a, b);
    Some(())
}

pub fn table_twice(random: &mut Random, document: &mut Document) -> Option<()> {
    let table = any_table(random, document);
    let again = document.tables[table].clone();
    document.tables.insert(table, again);
    Some(())
}

pub fn group_cut(random: &mut Random, document: &mut Document) -> Option<()> {
    let length = document.tables.len();
    if length == FIRST_TERM {
        return None;
    }
    document.tables.truncate(length - random.range(1, 2));
    Some(())
}

/// The option table, or the `term` table of a generated term.
pub fn single_row_table(random: &mut Random, document: &Document) -> usize {
    let groups = (document.tables.len() - FIRST_TERM) / 3;
    match random.below(groups + 1) {
        0 => 0,
        group => FIRST_TERM + 3 * (group - 1),
    }
}

pub fn single_row_missing(random: &mut Random, document: &mut Document) -> Option<()> {
    let table = single_row_table(random, document);
    document.tables[table].rows.clear();
    Some(())
}

pub fn single_row_twice(random: &mut Random, document: &mut Document) -> Option<()> {
    let table = single_row_table(random, document);
    let row = document.tables[table].rows.first()?.clone();
    document.tables[table].rows.push(row);
    Some(())
}

pub fn any_text(random: &mut Random, document: &Document) -> Option<(usize, usize)> {
    let table = random.range(FILE, POS);
    let rows = count(document, table);
    (rows > 0).then(|| (table, random.below(rows)))
}

pub fn text_empty(random: &mut Random, document: &mut Document) -> Option<()> {
    let (table, row) = any_text(random, document)?;
    document.tables[table].rows[row].clear();
    Some(())
}

pub fn any_row(random: &mut Random, document: &Document) -> Option<(usize, usize)> {
    let (table, row, _) = find(random, document, |_, _, _| true)?;
    Some((table, row))
}

pub fn empty_line_between(random: &mut Random, document: &mut Document) -> Option<()> {
    let (table, row) = any_row(random, document)?;
    document.tables[table].rows.insert(row, String::new());
    Some(())
}

pub fn change_row(
    random: &mut Random,
    document: &mut Document,
    change: impl Fn(&mut Random, &str) -> String,
) -> Option<()> {
    let (table, row) = any_row(random, document)?;
    let changed = change(random, &document.tables[table].rows[row]);
    document.tables[table].rows[row] = changed;
    Some(())
}

pub fn column_missing(random: &mut Random, document: &mut Document) -> Option<()> {
    let (table, row) = any_row(random, document)?;
    let mut words = words(document, table, row);
    let at = if random.chance(50) {
        words.len() - 1
    } else {
        random.below(words.len())
    };
    words.remove(at);
    document.tables[table].rows[row] = words.join(" ");
    Some(())
}

pub fn column_more(random: &mut Random, document: &mut Document) -> Option<()> {
    change_row(random, document, |random, row| {
        format!("{row} {}", random.pick(&["-", "0", "x"]))
    })
}

pub fn space_at_end(random: &mut Random, document: &mut Document) -> Option<()> {
    change_row(random, document, |_, row| format!("{row} "))
}

pub fn space_at_front(random: &mut Random, document: &mut Document) -> Option<()> {
    change_row(random, document, |_, row| format!(" {row}"))
}

pub fn two_spaces(random: &mut Random, document: &mut Document) -> Option<()> {
    let (table, row) = any_row(random, document)?;
    let text = &mut document.tables[table].rows[row];
    let at = text.find(' ')?;
    text.insert(at, ' ');
    Some(())
}
