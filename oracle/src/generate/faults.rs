//! Faults by refusal number. Each is made so that, put into an accepted plan, it is refused by
//! just this number; number 0 is for changes that leave the plan accepted.

use crate::cells::{FILE, FIRST_TERM, POS, SYM, TERMS, TYPES, VARIANTS};
use crate::faults_accepted::*;
use crate::faults_levels::*;
use crate::faults_limits::*;
use crate::faults_references::*;
use crate::faults_tables::*;
use crate::faults_values::*;
use crate::random::Random;
use crate::rows::Document;

type Rows = fn(&mut Random, &mut Document) -> Option<()>;
type Bytes = fn(&mut Random, &mut Vec<u8>) -> Option<()>;

/// A change of a plan's rows or of its bytes; it gives none where the plan has no place for it.
pub enum Change {
    Rows(Rows),
    Bytes(Bytes),
}

pub struct Fault {
    pub number: u8,
    pub name: &'static str,
    pub change: Change,
}

const fn rows(number: u8, name: &'static str, change: Rows) -> Fault {
    Fault {
        number,
        name,
        change: Change::Rows(change),
    }
}

const fn bytes(number: u8, name: &'static str, change: Bytes) -> Fault {
    Fault {
        number,
        name,
        change: Change::Bytes(change),
    }
}

// One fault a line.
#[rustfmt::skip]
pub const FAULTS: &[Fault] = &[
    bytes(1, "plan over its length", over_length),
    bytes(1, "plan far over its length", far_over_length),
    bytes(1, "plan over its length with another byte", over_length_with_another_byte),
    bytes(0, "plan of 65,536 bytes", full_length),
    bytes(2, "another byte inserted", another_byte_inserted),
    bytes(2, "another byte in place of one", another_byte_replacing),
    bytes(2, "CR LF", carriage_returns),
    bytes(2, "another byte at the end", another_byte_at_end),
    bytes(2, "another byte alone", another_byte_alone),
    bytes(3, "last byte missing", last_byte_missing),
    bytes(3, "last empty line missing", last_line_cut),
    bytes(3, "empty line more at the end", empty_line_more),
    bytes(3, "empty line first", empty_line_first),
    bytes(3, "empty file", empty_file),
    bytes(3, "one line feed", one_line_feed),
    bytes(3, "cut anywhere in the last table", cut_in_last_table),
    bytes(3, "line after the last table", line_after_last),
    rows(3, "names line changed", names_line_changed),
    rows(3, "names line with a space at its end", names_line_space),
    rows(3, "names line missing", names_line_missing),
    rows(3, "names line twice", names_line_twice),
    rows(3, "table missing", table_missing),
    rows(3, "tables exchanged", tables_exchanged),
    rows(3, "table twice", table_twice),
    rows(3, "term group cut short", group_cut),
    rows(3, "option or term table without a row", single_row_missing),
    rows(3, "option or term table with two rows", single_row_twice),
    rows(3, "text empty", text_empty),
    rows(3, "empty line between rows", empty_line_between),
    rows(3, "column missing", column_missing),
    rows(3, "column more", column_more),
    rows(3, "space at a row's end", space_at_end),
    rows(3, "space at a row's front", space_at_front),
    rows(3, "two spaces", two_spaces),
    rows(3, "flag not 0 or 1", flag_wrong),
    rows(3, "threshold wrong", threshold_wrong),
    rows(3, "kind unknown", kind_unknown),
    rows(3, "kind of another table", kind_of_another_table),
    rows(3, "number missing", number_missing),
    rows(3, "number with a leading zero", number_leading_zero),
    rows(3, "no number", no_number),
    rows(3, "field wrong", field_wrong),
    rows(3, "integer value wrong", value_wrong),
    rows(3, "unused value given", unused_given),
    rows(3, "ctor or xtor wrong", function_wrong),
    rows(3, "list where none may stand", list_where_none),
    rows(3, "list of 33 where none may stand", long_list_where_none),
    rows(3, "list laid out wrongly", list_wrong),
    rows(3, "list value with a leading zero", list_leading_zero),
    rows(3, "field list of the other shape", list_other_shape),
    rows(3, "_ in a binding's list or bind_order", underscore_in_list),
    rows(3, "first row not at level 0", first_level),
    rows(3, "level jumps", level_jumps),
    rows(3, "level laid out wrongly", level_wrong),
    rows(3, "level of many digits", level_of_many_digits),
    rows(3, "step right below match", step_below_match),
    rows(3, "arm below no match", arm_below_no_match),
    rows(3, "row below return", row_below_return),
    rows(3, "fault of shape below level 63", shape_below_63),
    rows(3, "fault of layout in a row beyond the most", layout_beyond_rows),
    rows(3, "fault of layout in a list beyond the most", layout_beyond_list),
    rows(3, "fault of layout in a term beyond the most", layout_beyond_terms),
    rows(4, "files over their most", |_, d| fill(d, FILE, 65)),
    rows(4, "syms over their most", |_, d| fill(d, SYM, 2049)),
    rows(4, "positions over their most", |_, d| fill(d, POS, 2049)),
    rows(4, "types over their most", |_, d| fill(d, TYPES, 244)),
    rows(4, "variants over their most", |_, d| fill(d, VARIANTS, 1025)),
    rows(4, "terms over their most", |_, d| fill(d, TERMS, 513)),
    rows(4, "generated terms over their most", |_, d| fill_groups(d, 65)),
    rows(4, "bindings over their most", |r, d| fill_bindings(r, d, 1025)),
    rows(4, "block rows over their most", |r, d| fill_block(r, d, 2049)),
    rows(4, "level 64", |r, d| nest(r, d, 64)),
    rows(4, "levels far over 63", |r, d| nest(r, d, 90)),
    rows(4, "list of 33", list_of_33),
    rows(4, "list far over 32", list_far_over),
    rows(0, "files at their most", |_, d| fill(d, FILE, 64)),
    rows(0, "syms at their most", |_, d| fill(d, SYM, 2048)),
    rows(0, "positions at their most", |_, d| fill(d, POS, 2048)),
    rows(0, "types at their most", |_, d| fill(d, TYPES, 243)),
    rows(0, "variants at their most", |_, d| fill(d, VARIANTS, 1024)),
    rows(0, "terms at their most", |_, d| fill(d, TERMS, 512)),
    rows(0, "generated terms at their most", |_, d| fill_groups(d, 64)),
    rows(0, "bindings at their most", |r, d| fill_bindings(r, d, 1024)),
    rows(0, "block rows at their most", |r, d| fill_block(r, d, 2048)),
    rows(0, "level 63", |r, d| nest(r, d, 63)),
    rows(0, "bind_order of 32", bind_order_of_32),
    rows(0, "unused type with a list of 32", unused_type_of_32),
    rows(0, "threshold any", threshold_any),
    rows(0, "field 255", field_255),
    rows(0, "text odd", text_odd),
    rows(0, "integer value any", value_any),
    rows(0, "flag turned where nothing hangs on it", flag_turned),
    rows(0, "no generated term", no_generated_term),
    rows(0, "term generated again", |_, d| fill_groups(d, (d.tables.len() - FIRST_TERM) / 3 + 1)),
    rows(0, "unused ctor and xtor absent", unused_functions_absent),
    rows(0, "any binding in a block's row", any_binding_in_block),
    rows(5, "row number one beyond", row_one_beyond),
    rows(5, "row number far beyond", row_far_beyond),
    rows(5, "row number of many digits", row_of_many_digits),
    rows(5, "ctor or xtor beyond", function_beyond),
    rows(5, "list value beyond", list_value_beyond),
    rows(5, "list value beyond and a wrong length", list_value_beyond_and_length),
    rows(5, "type of the wrong sort", type_of_wrong_sort),
    rows(5, "variant row of no enum", variant_of_no_enum),
    rows(5, "needed ctor absent", needed_ctor_absent),
    rows(5, "needed xtor absent", needed_xtor_absent),
    rows(5, "row of an unused term beyond", unused_term_beyond),
    rows(5, "arg index beyond", argument_beyond),
    rows(6, "source more", source_more),
    rows(6, "source less", source_less),
    rows(6, "arm binding more", arm_binding_more),
    rows(6, "arm binding less", arm_binding_less),
    rows(6, "_ in a constant arm", underscore_in_constant_arm),
    rows(6, "unused binding with a wrong length", unused_binding_length),
    rows(7, "binding its own source", own_source),
    rows(7, "later source", later_source),
    rows(7, "argument twice", argument_twice),
    rows(8, "return before the last step", return_not_last),
    rows(8, "two returns in a row", two_returns),
    rows(8, "two returns in a row, further in", two_returns_inside),
    rows(8, "loop in another kind of term", loop_in_other_term),
    rows(8, "loop on no iter in another kind of term", loop_on_no_iter_in_other_term),
    rows(8, "two returns in a later term, match without arms in an earlier one", later_returns),
    rows(9, "match without arms", match_without_arms),
    rows(9, "match without arms, further in", match_without_arms_inside),
    rows(9, "match without arms, last", match_without_arms_last),
    rows(10, "loop result not an iter", loop_on_no_iter),
    rows(10, "loop result not an iter, further in", loop_on_no_iter_inside),
];
