//! What stands in each cell of a plan's rows, so that faults can be put into them.

use crate::random::Random;
use crate::rows::{BUILTINS, Document};

/// The tables before the generated terms, by number.
pub const FILE: usize = 1;
pub const SYM: usize = 2;
pub const POS: usize = 3;
pub const TYPES: usize = 4;
pub const VARIANTS: usize = 5;
pub const TERMS: usize = 6;
/// The first table of the generated terms, which take three tables each.
pub const FIRST_TERM: usize = 7;

#[derive(Clone, Copy, PartialEq)]
pub enum Cell {
    Flag,
    Threshold,
    Kind,
    Level,
    Field,
    /// An integer value.
    Value,
    Unused,
    /// A number below this count.
    Row(usize),
    /// A ctor or xtor.
    Function,
    /// A list column where only `-` may stand.
    NoList,
    NamedFields,
    Types,
    Sources,
    BindOrder,
    ArmBindings,
}

impl Cell {
    pub fn is_list(self) -> bool {
        matches!(
            self,
            Cell::NamedFields | Cell::Types | Cell::Sources | Cell::BindOrder | Cell::ArmBindings
        )
    }
}

/// The place of a cell: table, row, column.
pub type Place = (usize, usize, usize);

pub fn words(document: &Document, table: usize, row: usize) -> Vec<String> {
    document.tables[table].rows[row]
        .split(' ')
        .map(str::to_string)
        .collect()
}

pub fn get(document: &Document, (table, row, column): Place) -> String {
    words(document, table, row)[column].clone()
}

pub fn set(document: &mut Document, (table, row, column): Place, word: &str) {
    let mut words = words(document, table, row);
    words[column] = word.to_string();
    document.tables[table].rows[row] = words.join(" ");
}

/// The values of a list cell.
pub fn values(document: &Document, place: Place) -> Vec<String> {
    match get(document, place).as_str() {
        "-" => Vec::new(),
        list => list.split(',').map(str::to_string).collect(),
    }
}

pub fn count(document: &Document, table: usize) -> usize {
    document.tables[table].rows.len()
}

pub fn type_count(document: &Document) -> usize {
    BUILTINS + count(document, TYPES)
}

/// The number of a row's table within its generated term: 0 `term`, 1 bindings, 2 block.
pub fn part(table: usize) -> Option<usize> {
    table.checked_sub(FIRST_TERM).map(|from| from % 3)
}

/// The kind word of a type, `builtin` for a builtin.
pub fn type_kind(document: &Document, ty: usize) -> String {
    match ty.checked_sub(BUILTINS) {
        Some(row) if row < count(document, TYPES) => get(document, (TYPES, row, 0)),
        _ => "builtin".to_string(),
    }
}

fn variant_count(document: &Document, ty: &str) -> usize {
    (0..count(document, VARIANTS))
        .filter(|&row| get(document, (VARIANTS, row, 0)) == ty)
        .count()
}

/// The terms row of the generated term that a table belongs to.
pub fn term_of(document: &Document, table: usize) -> Option<usize> {
    let group = table - part(table)?;
    document.tables[group]
        .rows
        .first()?
        .parse()
        .ok()
        .filter(|&row| row < count(document, TERMS))
}

fn argument_count(document: &Document, table: usize) -> usize {
    term_of(document, table).map_or(0, |term| values(document, (TERMS, term, 8)).len())
}

/// What stands in the cells of a row; nothing for a text.
pub fn cells(document: &Document, table: usize, row: usize) -> Vec<Cell> {
    let words = words(document, table, row);
    let cells = match (table, part(table)) {
        (0, _) => vec![Cell::Flag, Cell::Flag, Cell::Flag, Cell::Threshold],
        (TYPES, _) => type_cells(document, &words),
        (VARIANTS, _) => variant_cells(document, &words),
        (TERMS, _) => term_cells(document),
        (_, Some(0)) => vec![Cell::Row(count(document, TERMS))],
        (_, Some(1)) => binding_cells(document, table, &words),
        (_, Some(2)) => block_cells(document, table, &words),
        _ => Vec::new(),
    };
    // A row that has been damaged may have any number of words.
    if cells.len() == words.len() {
        cells
    } else {
        Vec::new()
    }
}

fn syms(document: &Document) -> Cell {
    Cell::Row(count(document, SYM))
}

fn positions(document: &Document) -> Cell {
    Cell::Row(count(document, POS))
}

fn fields(shape: &str) -> Cell {
    match shape {
        "named" => Cell::NamedFields,
        "tuple" => Cell::Types,
        _ => Cell::NoList,
    }
}

fn type_cells(document: &Document, words: &[String]) -> Vec<Cell> {
    if words[0] == "prim" {
        let unused = Cell::Unused;
        return vec![
            Cell::Kind,
            syms(document),
            unused,
            unused,
            unused,
            Cell::NoList,
        ];
    }
    let (name, pos) = (syms(document), positions(document));
    vec![
        Cell::Kind,
        name,
        Cell::Flag,
        Cell::Flag,
        pos,
        fields(&words[0]),
    ]
}

fn variant_cells(document: &Document, words: &[String]) -> Vec<Cell> {
    let shape = words.get(2).map_or("", |word| word);
    vec![
        Cell::Row(type_count(document)),
        syms(document),
        Cell::Kind,
        fields(shape),
    ]
}

fn term_cells(document: &Document) -> Vec<Cell> {
    vec![
        syms(document),
        positions(document),
        Cell::Row(type_count(document)),
        Cell::Flag,
        Cell::Flag,
        Cell::Function,
        Cell::Function,
        Cell::Flag,
        Cell::Types,
    ]
}

fn constraint_cells(document: &Document, kind: &str, a: &str) -> Option<(Cell, Cell)> {
    let types = Cell::Row(type_count(document));
    Some(match kind {
        "bool" => (Cell::Flag, Cell::Unused),
        "int" => (types, Cell::Value),
        "prim" => (syms(document), Cell::Unused),
        "variant" => (types, Cell::Row(variant_count(document, a))),
        "struct" => (types, Cell::Unused),
        "some" => (Cell::Unused, Cell::Unused),
        _ => return None,
    })
}

fn binding_cells(document: &Document, table: usize, words: &[String]) -> Vec<Cell> {
    if words.len() != 4 {
        return Vec::new();
    }
    let terms = Cell::Row(count(document, TERMS));
    let (a, b) = match words[0].as_str() {
        "arg" => (Cell::Row(argument_count(document, table)), Cell::Unused),
        "extract" | "construct" => (terms, Cell::Unused),
        "iter" | "matchsome" => (Cell::Unused, Cell::Unused),
        "matchtuple" | "matchvariant" | "extractstruct" => (Cell::Field, Cell::Unused),
        kind => match constraint_cells(document, kind, &words[1]) {
            Some(pair) => pair,
            None => return Vec::new(),
        },
    };
    vec![Cell::Kind, a, b, Cell::Sources]
}

fn block_cells(document: &Document, table: usize, words: &[String]) -> Vec<Cell> {
    if words.len() != 5 {
        return Vec::new();
    }
    let bindings = Cell::Row(count(document, table - 1));
    let (a, b, list) = match words[1].as_str() {
        "match" | "loop" => (bindings, Cell::Unused, Cell::BindOrder),
        "equal" => (bindings, bindings, Cell::BindOrder),
        "return" => (bindings, positions(document), Cell::BindOrder),
        kind => match constraint_cells(document, kind, &words[2]) {
            Some((a, b)) => (a, b, Cell::ArmBindings),
            None => return Vec::new(),
        },
    };
    vec![Cell::Level, Cell::Kind, a, b, list]
}

/// A place whose cell and row are as wanted, in any of the tables that have one.
pub fn find(
    random: &mut Random,
    document: &Document,
    wanted: impl Fn(&Document, Place, Cell) -> bool,
) -> Option<Place> {
    let mut by_table: Vec<Vec<Place>> = Vec::new();
    for table in 0..document.tables.len() {
        let mut places = Vec::new();
        for row in 0..count(document, table) {
            for (column, cell) in cells(document, table, row).into_iter().enumerate() {
                let place = (table, row, column);
                if wanted(document, place, cell) {
                    places.push(place);
                }
            }
        }
        if !places.is_empty() {
            by_table.push(places);
        }
    }
    if by_table.is_empty() {
        return None;
    }
    let table = random.below(by_table.len());
    Some(*random.pick(&by_table[table]))
}
