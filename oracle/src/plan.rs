//! The plan's reader: bytes to rows, or the lowest refusal from 1 to 10.
//!
//! One function states each refusal; [`Plan::read`] calls them in the order of their numbers, each
//! over the whole plan, so that all of 3 is judged before any of 4, and so on.
//!
//! - [`length`] (1): a plan has at most 65,536 bytes.
//! - [`bytes`] (2): its bytes are LF and hexadecimal 20 to 7E.
//! - [`layout`] (3): tables, rows, levels and values are laid out as the document says. It alone
//!   reads text; what it gives are rows of numbers, kinds and lists.
//! - [`most`] (4): no table, level or list is over its most.
//! - [`existence`] (5): rows, variants and arguments named anywhere exist, types are of the right
//!   sort, and a constructor or extractor that is used isn't `-`.
//! - [`list_lengths`] (6): lists of bindings and arms have the length of their fields, parameters
//!   or kind.
//! - [`sources`] (7): sources are lower than their binding; no argument is bound twice.
//! - [`returns`] (8): without iterator kind there is no loop, and a block's first return is its
//!   last step.
//! - [`arms`] (9): a `match` has an arm.
//! - [`loops`] (10): the result of a `loop` is an `iter`.

mod layout;

/// The number of a refusal.
pub type Refusal = u8;

/// A number of the plan. A larger one is held as `u32::MAX`: every row, level and list count is
/// below 65,537, the number of bytes of a plan, so that no comparison can tell the two apart.
pub type Number = u32;

pub struct Plan<'a> {
    pub options: Options,
    pub files: Vec<&'a str>,
    pub syms: Vec<&'a str>,
    pub positions: Vec<&'a str>,
    /// The rows of the types table; type 13 is row 0.
    pub types: Vec<TypeRow>,
    pub variants: Vec<VariantRow>,
    pub terms: Vec<TermRow>,
    pub generated: Vec<Generated>,
}

#[derive(Clone, Copy, Debug)]
pub struct Options {
    pub nopragmas: bool,
    pub log: bool,
    pub split: bool,
    /// None for the default.
    pub threshold: Option<u32>,
}

pub struct TypeRow {
    pub name: Number,
    pub kind: TypeKind,
}

pub enum TypeKind {
    Prim,
    Enum(TypeFlags),
    Struct(TypeFlags, Fields),
}

pub struct TypeFlags {
    pub is_extern: bool,
    pub is_nodebug: bool,
    pub pos: Number,
}

pub enum Fields {
    Unit,
    /// Name and type of each field.
    Named(Vec<(Number, Number)>),
    Tuple(Vec<Number>),
}

impl Fields {
    pub fn len(&self) -> usize {
        match self {
            Fields::Unit => 0,
            Fields::Named(fields) => fields.len(),
            Fields::Tuple(fields) => fields.len(),
        }
    }
}

pub struct VariantRow {
    pub ty: Number,
    pub name: Number,
    pub fields: Fields,
}

/// A term's ctor or xtor column.
#[derive(Clone, Copy, PartialEq, Eq)]
pub enum Function {
    None,
    Internal,
    External(Number),
}

pub struct TermRow {
    pub name: Number,
    pub pos: Number,
    pub ret: Number,
    pub multi: bool,
    pub partial: bool,
    pub ctor: Function,
    pub xtor: Function,
    pub infallible: bool,
    pub args: Vec<Number>,
}

/// The three tables of a generated term.
pub struct Generated {
    pub term: Number,
    pub bindings: Vec<BindingRow>,
    pub block: Vec<BlockRow>,
}

pub struct BindingRow {
    pub kind: BindingKind,
    pub sources: Vec<Number>,
}

#[derive(Clone, Copy)]
pub enum BindingKind {
    Bool(bool),
    Int { ty: Number, value: i128 },
    Prim(Number),
    Arg(Number),
    Extract(Number),
    Construct(Number),
    Iter,
    Variant { ty: Number, variant: Number },
    Struct(Number),
    Some,
    MatchSome,
    MatchTuple(u8),
    MatchVariant(u8),
    ExtractStruct(u8),
}

pub struct BlockRow {
    pub level: Number,
    pub kind: RowKind,
}

pub enum RowKind {
    Step {
        step: Step,
        bind_order: Vec<Number>,
    },
    Arm {
        arm: Arm,
        bindings: Vec<Option<Number>>,
    },
}

#[derive(Clone, Copy)]
pub enum Step {
    Match { source: Number },
    Equal { a: Number, b: Number },
    Loop { result: Number },
    Return { result: Number, pos: Number },
}

#[derive(Clone, Copy)]
pub enum Arm {
    Bool(bool),
    Int { ty: Number, value: i128 },
    Prim(Number),
    Variant { ty: Number, variant: Number },
    Struct(Number),
    Some,
}

/// How many builtin types stand before the rows of the types table.
pub const BUILTINS: usize = 13;

/// What a type number stands for.
pub enum TypeSort<'p> {
    Builtin,
    Prim,
    Enum,
    Struct(&'p Fields),
}

impl<'a> Plan<'a> {
    pub fn read(plan: &'a [u8]) -> Result<Plan<'a>, Refusal> {
        length(plan)?;
        let text = bytes(plan)?;
        let plan = layout::layout(text).ok_or(3u8)?;
        let variants = VariantIndex::of(&plan);
        refuse(4, most(&plan))?;
        refuse(5, existence(&plan, &variants))?;
        refuse(6, list_lengths(&plan, &variants))?;
        refuse(7, sources(&plan))?;
        refuse(8, returns(&plan))?;
        refuse(9, arms(&plan))?;
        refuse(10, loops(&plan))?;
        Ok(plan)
    }

    pub fn type_sort(&self, ty: Number) -> Option<TypeSort<'_>> {
        let ty = ty as usize;
        if ty < BUILTINS {
            return Some(TypeSort::Builtin);
        }
        let row = self.types.get(ty - BUILTINS)?;
        Some(match &row.kind {
            TypeKind::Prim => TypeSort::Prim,
            TypeKind::Enum(_) => TypeSort::Enum,
            TypeKind::Struct(_, fields) => TypeSort::Struct(fields),
        })
    }

    /// The fields of a struct type; it exists once refusal 5 has been judged.
    pub fn struct_fields(&self, ty: Number) -> &Fields {
        match self.type_sort(ty) {
            Some(TypeSort::Struct(fields)) => fields,
            _ => unreachable!("refusal 5 has been judged"),
        }
    }

    /// The fields of an enum's variant; it exists once refusal 5 has been judged.
    pub fn variant_fields(&self, variants: &VariantIndex, ty: Number, variant: Number) -> &Fields {
        &self.variants[variants.rows(ty)[variant as usize]].fields
    }

    /// The term of a generated term's tables; it exists once refusal 5 has been judged.
    pub fn term_of(&self, generated: &Generated) -> &TermRow {
        &self.terms[generated.term as usize]
    }
}

fn refuse(number: Refusal, holds: bool) -> Result<(), Refusal> {
    if holds { Ok(()) } else { Err(number) }
}

/// The variants of each enum, numbered from 0 in the order of their rows.
pub struct VariantIndex {
    /// For each row of the types table, the variant rows that name it.
    rows: Vec<Vec<usize>>,
}

impl VariantIndex {
    pub fn of(plan: &Plan) -> VariantIndex {
        let mut rows = vec![Vec::new(); plan.types.len()];
        for (i, variant) in plan.variants.iter().enumerate() {
            let row = (variant.ty as usize).checked_sub(BUILTINS);
            if let Some(rows) = row.and_then(|row| rows.get_mut(row)) {
                rows.push(i);
            }
        }
        VariantIndex { rows }
    }

    /// The rows of the variants of a type, none for a builtin.
    pub fn rows(&self, ty: Number) -> &[usize] {
        let row = (ty as usize).checked_sub(BUILTINS);
        row.and_then(|row| self.rows.get(row))
            .map_or(&[], Vec::as_slice)
    }
}

/// Refusal 1: the plan is over its length.
fn length(plan: &[u8]) -> Result<(), Refusal> {
    refuse(1, plan.len() <= 65_536)
}

/// Refusal 2: a byte other than LF and hexadecimal 20 to 7E.
fn bytes(plan: &[u8]) -> Result<&str, Refusal> {
    let allowed = |&byte: &u8| byte == b'\n' || (0x20..=0x7e).contains(&byte);
    refuse(2, plan.iter().all(allowed))?;
    std::str::from_utf8(plan).map_err(|_| 2)
}

/// Refusal 4: "a table, level or list over its most".
fn most(plan: &Plan) -> bool {
    plan.files.len() <= 64
        && plan.syms.len() <= 2_048
        && plan.positions.len() <= 2_048
        && plan.types.len() + BUILTINS <= 256
        && plan.variants.len() <= 1_024
        && plan.terms.len() <= 512
        && plan.generated.len() <= 64
        && plan.types.iter().all(|row| match &row.kind {
            TypeKind::Prim | TypeKind::Enum(_) => true,
            TypeKind::Struct(_, fields) => list_fits(fields.len()),
        })
        && plan.variants.iter().all(|row| list_fits(row.fields.len()))
        && plan.terms.iter().all(|row| list_fits(row.args.len()))
        && plan.generated.iter().all(generated_fits)
}

fn list_fits(len: usize) -> bool {
    len <= 32
}

fn generated_fits(generated: &Generated) -> bool {
    generated.bindings.len() <= 1_024
        && generated.block.len() <= 2_048
        && generated
            .bindings
            .iter()
            .all(|row| list_fits(row.sources.len()))
        && generated.block.iter().all(|row| {
            row.level <= 63
                && list_fits(match &row.kind {
                    RowKind::Step { bind_order, .. } => bind_order.len(),
                    RowKind::Arm { bindings, .. } => bindings.len(),
                })
        })
}

/// Refusal 5: "a row, variant or argument number that doesn't exist, a type of the wrong sort, a
/// needed ctor or xtor `-`". Every row named anywhere is judged, used or not.
fn existence(plan: &Plan, variants: &VariantIndex) -> bool {
    let names = Names { plan, variants };
    plan.types.iter().all(|row| names.type_row(row))
        && plan
            .variants
            .iter()
            .all(|row| names.is_enum(row.ty) && names.sym(row.name) && names.fields(&row.fields))
        && plan.terms.iter().all(|row| names.term_row(row))
        && plan
            .generated
            .iter()
            .all(|generated| names.generated(generated))
}

struct Names<'p> {
    plan: &'p Plan<'p>,
    variants: &'p VariantIndex,
}

fn exists<T>(row: Number, table: &[T]) -> bool {
    (row as usize) < table.len()
}

impl Names<'_> {
    fn sym(&self, sym: Number) -> bool {
        exists(sym, &self.plan.syms)
    }

    fn pos(&self, pos: Number) -> bool {
        exists(pos, &self.plan.positions)
    }

    fn ty(&self, ty: Number) -> bool {
        self.plan.type_sort(ty).is_some()
    }

    fn is_enum(&self, ty: Number) -> bool {
        matches!(self.plan.type_sort(ty), Some(TypeSort::Enum))
    }

    fn is_struct(&self, ty: Number) -> bool {
        matches!(self.plan.type_sort(ty), Some(TypeSort::Struct(_)))
    }

    fn variant(&self, ty: Number, variant: Number) -> bool {
        self.is_enum(ty) && exists(variant, self.variants.rows(ty))
    }

    fn fields(&self, fields: &Fields) -> bool {
        match fields {
            Fields::Unit => true,
            Fields::Named(fields) => fields
                .iter()
                .all(|&(name, ty)| self.sym(name) && self.ty(ty)),
            Fields::Tuple(fields) => fields.iter().all(|&ty| self.ty(ty)),
        }
    }

    fn type_row(&self, row: &TypeRow) -> bool {
        self.sym(row.name)
            && match &row.kind {
                TypeKind::Prim => true,
                TypeKind::Enum(flags) => self.pos(flags.pos),
                TypeKind::Struct(flags, fields) => self.pos(flags.pos) && self.fields(fields),
            }
    }

    fn term_row(&self, row: &TermRow) -> bool {
        self.sym(row.name)
            && self.pos(row.pos)
            && self.ty(row.ret)
            && [row.ctor, row.xtor].iter().all(|&function| match function {
                Function::External(name) => self.sym(name),
                Function::None | Function::Internal => true,
            })
            && row.args.iter().all(|&ty| self.ty(ty))
    }

    fn term(&self, term: Number) -> Option<&TermRow> {
        self.plan.terms.get(term as usize)
    }

    /// A term whose constructor is needed.
    fn constructor(&self, term: Number) -> bool {
        self.term(term)
            .is_some_and(|term| term.ctor != Function::None)
    }

    /// A term whose extractor is needed.
    fn extractor(&self, term: Number) -> bool {
        self.term(term)
            .is_some_and(|term| term.xtor != Function::None)
    }

    fn generated(&self, generated: &Generated) -> bool {
        let bindings = &generated.bindings;
        self.constructor(generated.term)
            && bindings.iter().all(|row| {
                self.binding_kind(generated, row.kind)
                    && row.sources.iter().all(|&source| exists(source, bindings))
            })
            && generated.block.iter().all(|row| match &row.kind {
                RowKind::Step { step, bind_order } => {
                    self.step(generated, *step)
                        && bind_order.iter().all(|&binding| exists(binding, bindings))
                }
                RowKind::Arm {
                    arm,
                    bindings: of_arm,
                } => {
                    self.arm(*arm)
                        && of_arm
                            .iter()
                            .flatten()
                            .all(|&binding| exists(binding, bindings))
                }
            })
    }

    fn binding_kind(&self, generated: &Generated, kind: BindingKind) -> bool {
        match kind {
            BindingKind::Int { ty, .. } => self.ty(ty),
            BindingKind::Prim(sym) => self.sym(sym),
            BindingKind::Arg(index) => exists(index, &self.plan.term_of(generated).args),
            BindingKind::Extract(term) => self.extractor(term),
            BindingKind::Construct(term) => self.constructor(term),
            BindingKind::Variant { ty, variant } => self.variant(ty, variant),
            BindingKind::Struct(ty) => self.is_struct(ty),
            BindingKind::Bool(_)
            | BindingKind::Iter
            | BindingKind::Some
            | BindingKind::MatchSome
            | BindingKind::MatchTuple(_)
            | BindingKind::MatchVariant(_)
            | BindingKind::ExtractStruct(_) => true,
        }
    }

    fn step(&self, generated: &Generated, step: Step) -> bool {
        let bindings = &generated.bindings;
        match step {
            Step::Match { source } => exists(source, bindings),
            Step::Equal { a, b } => exists(a, bindings) && exists(b, bindings),
            Step::Loop { result } => exists(result, bindings),
            Step::Return { result, pos } => exists(result, bindings) && self.pos(pos),
        }
    }

    fn arm(&self, arm: Arm) -> bool {
        match arm {
            Arm::Int { ty, .. } => self.ty(ty),
            Arm::Prim(sym) => self.sym(sym),
            Arm::Variant { ty, variant } => self.variant(ty, variant),
            Arm::Struct(ty) => self.is_struct(ty),
            Arm::Bool(_) | Arm::Some => true,
        }
    }
}

/// Refusal 6: "a binding's or arm's list length differs from its fields, its parameters, one for
/// the one-source kinds and `some` arms, or none for constants, `arg` and constant arms".
fn list_lengths(plan: &Plan, variants: &VariantIndex) -> bool {
    let lengths = Lengths { plan, variants };
    plan.generated.iter().all(|generated| {
        let bindings = generated.bindings.iter();
        let block = generated.block.iter();
        bindings
            .clone()
            .all(|row| row.sources.len() == lengths.binding(row.kind))
            && block.clone().all(|row| match &row.kind {
                RowKind::Step { .. } => true,
                RowKind::Arm { arm, bindings } => bindings.len() == lengths.arm(*arm),
            })
    })
}

struct Lengths<'p> {
    plan: &'p Plan<'p>,
    variants: &'p VariantIndex,
}

impl Lengths<'_> {
    fn binding(&self, kind: BindingKind) -> usize {
        match kind {
            BindingKind::Bool(_)
            | BindingKind::Int { .. }
            | BindingKind::Prim(_)
            | BindingKind::Arg(_) => 0,
            BindingKind::Extract(_)
            | BindingKind::Iter
            | BindingKind::Some
            | BindingKind::MatchSome
            | BindingKind::MatchTuple(_)
            | BindingKind::MatchVariant(_)
            | BindingKind::ExtractStruct(_) => 1,
            BindingKind::Construct(term) => self.plan.terms[term as usize].args.len(),
            BindingKind::Variant { ty, variant } => self.variant(ty, variant),
            BindingKind::Struct(ty) => self.plan.struct_fields(ty).len(),
        }
    }

    fn arm(&self, arm: Arm) -> usize {
        match arm {
            Arm::Bool(_) | Arm::Int { .. } | Arm::Prim(_) => 0,
            Arm::Variant { ty, variant } => self.variant(ty, variant),
            Arm::Struct(ty) => self.plan.struct_fields(ty).len(),
            Arm::Some => 1,
        }
    }

    fn variant(&self, ty: Number, variant: Number) -> usize {
        self.plan.variant_fields(self.variants, ty, variant).len()
    }
}

/// Refusal 7: "a source not lower than its binding; two `arg` of one index".
fn sources(plan: &Plan) -> bool {
    plan.generated.iter().all(|generated| {
        let mut bindings = generated.bindings.iter().enumerate();
        let lower =
            bindings.all(|(i, row)| row.sources.iter().all(|&source| (source as usize) < i));
        lower && arguments_differ(plan, generated)
    })
}

fn arguments_differ(plan: &Plan, generated: &Generated) -> bool {
    let mut seen = vec![false; plan.term_of(generated).args.len()];
    generated.bindings.iter().all(|row| match row.kind {
        BindingKind::Arg(index) => !std::mem::replace(&mut seen[index as usize], true),
        _ => true,
    })
}

/// Refusal 8: "in a term not of iterator kind: a loop, or a block whose first return isn't its
/// last step".
fn returns(plan: &Plan) -> bool {
    plan.generated
        .iter()
        .all(|generated| plan.term_of(generated).multi || returns_are_last(&generated.block))
}

fn returns_are_last(block: &[BlockRow]) -> bool {
    // For each level, whether the block that is open there has returned.
    let mut returned: Vec<bool> = Vec::new();
    block.iter().all(|row| {
        let level = row.level as usize;
        // A row ends all blocks that are deeper than it.
        returned.resize(level + 1, false);
        match row.kind {
            RowKind::Step {
                step: Step::Loop { .. },
                ..
            } => false,
            RowKind::Step { step, .. } => {
                let is_return = matches!(step, Step::Return { .. });
                !std::mem::replace(&mut returned[level], is_return)
            }
            RowKind::Arm { .. } => true,
        }
    })
}

/// Refusal 9: "`match` without arms".
fn arms(plan: &Plan) -> bool {
    plan.generated.iter().all(|generated| {
        let rows = generated.block.iter().enumerate();
        rows.clone().all(|(i, row)| match row.kind {
            RowKind::Step {
                step: Step::Match { .. },
                ..
            } => generated
                .block
                .get(i + 1)
                .is_some_and(|next| next.level > row.level),
            _ => true,
        })
    })
}

/// Refusal 10: "`loop` result not an `iter`".
fn loops(plan: &Plan) -> bool {
    plan.generated.iter().all(|generated| {
        generated.block.iter().all(|row| match row.kind {
            RowKind::Step {
                step: Step::Loop { result },
                ..
            } => {
                matches!(generated.bindings[result as usize].kind, BindingKind::Iter)
            }
            _ => true,
        })
    })
}
