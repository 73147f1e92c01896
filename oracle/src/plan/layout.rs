//! Refusal 3: "table, row, level or value not as laid out". `None` stands for the refusal.
//!
//! A table is a line of names, then lines of values, one space between, then an empty line. All
//! rows, lists and levels are read here, however many or high, as refusal 4 comes later.

use super::*;

/// The whole plan: the fixed tables, then three tables for each generated term.
pub fn layout(text: &str) -> Option<Plan<'_>> {
    let mut tables = Tables { rest: text };
    let mut options = tables.table("nopragmas log split threshold", options_row)?;
    let mut plan = Plan {
        options: only(&mut options)?,
        files: tables.table("file", Some)?,
        syms: tables.table("sym", Some)?,
        positions: tables.table("pos", Some)?,
        types: tables.table("kind name extern nodebug pos list", type_row)?,
        variants: tables.table("type name shape list", variant_row)?,
        terms: tables.table(
            "name pos ret multi partial ctor xtor infallible list",
            term_row,
        )?,
        generated: Vec::new(),
    };
    while !tables.rest.is_empty() {
        let mut term = tables.table("term", number)?;
        plan.generated.push(Generated {
            term: only(&mut term)?,
            bindings: tables.table("kind a b list", binding_row)?,
            block: tables.table("level kind a b list", block_row)?,
        });
    }
    let shaped = plan
        .generated
        .iter()
        .all(|generated| levels(&generated.block));
    shaped.then_some(plan)
}

/// The row of a table that has exactly one.
fn only<T>(rows: &mut Vec<T>) -> Option<T> {
    if rows.len() == 1 { rows.pop() } else { None }
}

/// The part of the plan that hasn't been read yet.
struct Tables<'a> {
    rest: &'a str,
}

impl<'a> Tables<'a> {
    /// The next line without its LF.
    fn line(&mut self) -> Option<&'a str> {
        let (line, rest) = self.rest.split_once('\n')?;
        self.rest = rest;
        Some(line)
    }

    /// A table with the given names, up to and with the empty line that ends it.
    fn table<T>(&mut self, names: &str, row: impl Fn(&'a str) -> Option<T>) -> Option<Vec<T>> {
        if self.line()? != names {
            return None;
        }
        let mut rows = Vec::new();
        loop {
            match self.line()? {
                "" => return Some(rows),
                line => rows.push(row(line)?),
            }
        }
    }
}

/// The values of a row, of which there must be `N`. No value is empty, as no value of any table
/// may be.
fn values<const N: usize>(line: &str) -> Option<[&str; N]> {
    let mut split = line.split(' ');
    let mut values = [""; N];
    for value in &mut values {
        *value = split.next()?;
    }
    split.next().is_none().then_some(values)
}

/// Decimal digits without a leading zero; see [`Number`] for large ones.
fn number(value: &str) -> Option<Number> {
    let digits = value.as_bytes();
    if digits.is_empty() || (digits[0] == b'0' && digits.len() > 1) {
        return None;
    }
    digits.iter().try_fold(0u32, |number, digit| {
        let digit = digit.is_ascii_digit().then(|| u32::from(digit - b'0'))?;
        Some(number.saturating_mul(10).saturating_add(digit))
    })
}

fn flag(value: &str) -> Option<bool> {
    match value {
        "0" => Some(false),
        "1" => Some(true),
        _ => None,
    }
}

fn unused(value: &str) -> Option<()> {
    (value == "-").then_some(())
}

/// A field of the last three binding kinds: 0 to 255.
fn field(value: &str) -> Option<u8> {
    number(value)?.try_into().ok()
}

/// An integer value: 32 lower-case hexadecimal digits, two's complement.
fn integer(value: &str) -> Option<i128> {
    let digits = value.as_bytes();
    let lower_case = |digit: &u8| matches!(digit, b'0'..=b'9' | b'a'..=b'f');
    if digits.len() != 32 || !digits.iter().all(lower_case) {
        return None;
    }
    Some(u128::from_str_radix(value, 16).ok()? as i128)
}

/// A list: `-` when empty, else values joined by commas.
fn list<T>(value: &str, element: impl Fn(&str) -> Option<T>) -> Option<Vec<T>> {
    if value == "-" {
        return Some(Vec::new());
    }
    value.split(',').map(element).collect()
}

fn numbers(value: &str) -> Option<Vec<Number>> {
    list(value, number)
}

fn options_row(line: &str) -> Option<Options> {
    let [nopragmas, log, split, threshold] = values(line)?;
    Some(Options {
        nopragmas: flag(nopragmas)?,
        log: flag(log)?,
        split: flag(split)?,
        threshold: match threshold {
            "-" => None,
            _ => Some(number(threshold).filter(|&threshold| threshold <= 65_535)?),
        },
    })
}

fn type_row(line: &str) -> Option<TypeRow> {
    let [kind, name, is_extern, is_nodebug, pos, list] = values(line)?;
    let name = number(name)?;
    if kind == "prim" {
        [is_extern, is_nodebug, pos, list]
            .into_iter()
            .try_for_each(unused)?;
        return Some(TypeRow {
            name,
            kind: TypeKind::Prim,
        });
    }
    let flags = TypeFlags {
        is_extern: flag(is_extern)?,
        is_nodebug: flag(is_nodebug)?,
        pos: number(pos)?,
    };
    let kind = match kind {
        "enum" => {
            unused(list)?;
            TypeKind::Enum(flags)
        }
        shape => TypeKind::Struct(flags, fields(shape, list)?),
    };
    Some(TypeRow { name, kind })
}

/// The fields of a struct or a variant, by its shape.
fn fields(shape: &str, fields: &str) -> Option<Fields> {
    match shape {
        "unit" => unused(fields).map(|()| Fields::Unit),
        "named" => list(fields, named_field).map(Fields::Named),
        "tuple" => numbers(fields).map(Fields::Tuple),
        _ => None,
    }
}

fn named_field(value: &str) -> Option<(Number, Number)> {
    let (name, ty) = value.split_once(':')?;
    Some((number(name)?, number(ty)?))
}

fn variant_row(line: &str) -> Option<VariantRow> {
    let [ty, name, shape, list] = values(line)?;
    Some(VariantRow {
        ty: number(ty)?,
        name: number(name)?,
        fields: fields(shape, list)?,
    })
}

fn term_row(line: &str) -> Option<TermRow> {
    let [name, pos, ret, multi, partial, ctor, xtor, infallible, list] = values(line)?;
    Some(TermRow {
        name: number(name)?,
        pos: number(pos)?,
        ret: number(ret)?,
        multi: flag(multi)?,
        partial: flag(partial)?,
        ctor: function(ctor)?,
        xtor: function(xtor)?,
        infallible: flag(infallible)?,
        args: numbers(list)?,
    })
}

fn function(value: &str) -> Option<Function> {
    match value {
        "-" => Some(Function::None),
        "in" => Some(Function::Internal),
        _ => number(value).map(Function::External),
    }
}

fn binding_row(line: &str) -> Option<BindingRow> {
    let [kind, a, b, list] = values(line)?;
    Some(BindingRow {
        kind: binding_kind(kind, a, b)?,
        sources: numbers(list)?,
    })
}

fn binding_kind(kind: &str, a: &str, b: &str) -> Option<BindingKind> {
    match kind {
        "int" => {
            return Some(BindingKind::Int {
                ty: number(a)?,
                value: integer(b)?,
            });
        }
        "variant" => {
            return Some(BindingKind::Variant {
                ty: number(a)?,
                variant: number(b)?,
            });
        }
        _ => unused(b)?,
    }
    Some(match kind {
        "bool" => BindingKind::Bool(flag(a)?),
        "prim" => BindingKind::Prim(number(a)?),
        "arg" => BindingKind::Arg(number(a)?),
        "extract" => BindingKind::Extract(number(a)?),
        "construct" => BindingKind::Construct(number(a)?),
        "struct" => BindingKind::Struct(number(a)?),
        "matchtuple" => BindingKind::MatchTuple(field(a)?),
        "matchvariant" => BindingKind::MatchVariant(field(a)?),
        "extractstruct" => BindingKind::ExtractStruct(field(a)?),
        "iter" => unused(a).map(|()| BindingKind::Iter)?,
        "some" => unused(a).map(|()| BindingKind::Some)?,
        "matchsome" => unused(a).map(|()| BindingKind::MatchSome)?,
        _ => return None,
    })
}

fn block_row(line: &str) -> Option<BlockRow> {
    let [level, kind, a, b, list] = values(line)?;
    let level = number(level)?;
    let kind = match kind {
        "match" | "equal" | "loop" | "return" => RowKind::Step {
            step: step(kind, a, b)?,
            bind_order: numbers(list)?,
        },
        _ => RowKind::Arm {
            arm: arm(kind, a, b)?,
            bindings: self::list(list, arm_binding)?,
        },
    };
    Some(BlockRow { level, kind })
}

fn step(kind: &str, a: &str, b: &str) -> Option<Step> {
    match kind {
        "equal" => {
            return Some(Step::Equal {
                a: number(a)?,
                b: number(b)?,
            });
        }
        "return" => {
            return Some(Step::Return {
                result: number(a)?,
                pos: number(b)?,
            });
        }
        _ => unused(b)?,
    }
    match kind {
        "match" => Some(Step::Match { source: number(a)? }),
        "loop" => Some(Step::Loop { result: number(a)? }),
        _ => None,
    }
}

fn arm(kind: &str, a: &str, b: &str) -> Option<Arm> {
    match kind {
        "int" => {
            return Some(Arm::Int {
                ty: number(a)?,
                value: integer(b)?,
            });
        }
        "variant" => {
            return Some(Arm::Variant {
                ty: number(a)?,
                variant: number(b)?,
            });
        }
        _ => unused(b)?,
    }
    match kind {
        "bool" => flag(a).map(Arm::Bool),
        "prim" => number(a).map(Arm::Prim),
        "struct" => number(a).map(Arm::Struct),
        "some" => unused(a).map(|()| Arm::Some),
        _ => None,
    }
}

/// A binding of an arm, `_` for none.
fn arm_binding(value: &str) -> Option<Option<Number>> {
    match value {
        "_" => Some(None),
        _ => number(value).map(Some),
    }
}

/// What may stand one level below a row, or at level 0.
#[derive(Clone, Copy, PartialEq)]
enum Below {
    Steps,
    Arms,
    Nothing,
}

/// "Block rows in order: steps at level 0. Below a `match`, one level deeper, stand its arms. Steps
/// stand one level below an arm, `equal` or `loop`. Nothing stands below `return`."
fn levels(block: &[BlockRow]) -> bool {
    // What may stand at each level that can be reached from the row before.
    let mut open = vec![Below::Steps];
    block.iter().all(|row| {
        let level = row.level as usize;
        if level >= open.len() {
            return false;
        }
        open.truncate(level + 1);
        let (wanted, below) = match &row.kind {
            RowKind::Arm { .. } => (Below::Arms, Below::Steps),
            RowKind::Step { step, .. } => (Below::Steps, below_step(*step)),
        };
        let fits = open[level] == wanted;
        open.push(below);
        fits
    })
}

fn below_step(step: Step) -> Below {
    match step {
        Step::Match { .. } => Below::Arms,
        Step::Equal { .. } | Step::Loop { .. } => Below::Steps,
        Step::Return { .. } => Below::Nothing,
    }
}
