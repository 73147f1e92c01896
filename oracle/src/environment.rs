//! A plan that passed refusals 1 to 10, as the environments, bindings and blocks of the crate.

use crate::ast;
use crate::codegen::CodegenOptions;
use crate::files::Files;
use crate::lexer::Pos;
use crate::plan::{
    Arm, BindingKind, BindingRow, BlockRow, Fields, Function, Generated, Number, Plan, RowKind,
    Step, TermRow, TypeKind, VariantIndex, VariantRow,
};
use crate::sema::{
    self, BuiltinType, ConstructorKind, ExtractorKind, FieldId, StructField, StructFields, Sym,
    Term, TermEnv, TermFlags, TermId, TermKind, TupleField, TupleFields, Type, TypeEnv, TypeId,
    Variant, VariantId,
};
use crate::serialize::{Block, ControlFlow, EvalStep, MatchArm};
use crate::stablemapset::StableMap;
use crate::trie_again::{Binding, BindingId, Constraint, RuleSet, TupleIndex};
use std::cell::RefCell;
use std::collections::VecDeque;
use std::sync::Arc;

/// What `codegen` is called with.
pub struct Environment {
    pub files: Arc<Files>,
    pub typeenv: TypeEnv,
    pub termenv: TermEnv,
    pub terms: Vec<(TermId, RuleSet)>,
    pub options: CodegenOptions,
}

thread_local! {
    /// The blocks of the generated terms, in the order in which codegen.rs asks for them.
    static BLOCKS: RefCell<VecDeque<Block>> = const { RefCell::new(VecDeque::new()) };
}

/// Stands in codegen.rs where the crate calls `serialize`.
pub fn next_block() -> Block {
    BLOCKS
        .with_borrow_mut(VecDeque::pop_front)
        .expect("a block for each generated term")
}

impl Environment {
    /// Also sets the blocks that `next_block` gives from here on, so that an environment is used
    /// for one text, on one thread, before the next one is made.
    pub fn of(plan: &Plan) -> Environment {
        let variants = VariantIndex::of(plan);
        let blocks = plan
            .generated
            .iter()
            .map(|generated| block(plan, &variants, generated));
        BLOCKS.set(blocks.collect());
        Environment {
            files: Arc::new(files(plan)),
            typeenv: typeenv(plan, &variants),
            termenv: termenv(plan),
            terms: plan
                .generated
                .iter()
                .map(|generated| (termid(generated.term), ruleset(generated)))
                .collect(),
            options: options(plan),
        }
    }
}

fn sym(row: Number) -> Sym {
    Sym(row as usize)
}

fn typeid(row: Number) -> TypeId {
    TypeId(row as usize)
}

fn termid(row: Number) -> TermId {
    TermId(row as usize)
}

fn pos(row: Number) -> Pos {
    Pos {
        file: 0,
        offset: row as usize,
    }
}

fn binding_id(row: Number) -> BindingId {
    (row as usize)
        .try_into()
        .expect("a table has at most 1,024 bindings")
}

pub fn binding_ids(rows: &[Number]) -> Vec<BindingId> {
    rows.iter().map(|&row| binding_id(row)).collect()
}

fn tuple_index(index: usize) -> TupleIndex {
    index
        .try_into()
        .expect("a list has at most 32 values, a field is at most 255")
}

fn texts(rows: &[&str]) -> Vec<String> {
    rows.iter().map(|row| row.to_string()).collect()
}

fn options(plan: &Plan) -> CodegenOptions {
    CodegenOptions {
        exclude_global_allow_pragmas: plan.options.nopragmas,
        prefixes: Vec::new(),
        emit_logging: plan.options.log,
        split_match_arms: plan.options.split,
        match_arm_split_threshold: plan.options.threshold.map(|threshold| threshold as usize),
    }
}

/// The names of the files, and the printed positions where `pretty_print_line` looks for them.
fn files(plan: &Plan) -> Files {
    Files {
        file_names: texts(&plan.files),
        file_texts: texts(&plan.positions),
        file_line_maps: Vec::new(),
    }
}

/// The maps by name stay empty: codegen.rs looks nothing up by name.
fn typeenv(plan: &Plan, variants: &VariantIndex) -> TypeEnv {
    let builtins = BuiltinType::ALL
        .iter()
        .map(|&builtin| Type::Builtin(builtin));
    let first_row = BuiltinType::ALL.len();
    let rows =
        (0..plan.types.len()).map(|row| type_of(plan, variants, row, TypeId(first_row + row)));
    TypeEnv {
        syms: texts(&plan.syms),
        sym_map: StableMap::default(),
        types: builtins.chain(rows).collect(),
        type_map: StableMap::default(),
        const_types: StableMap::default(),
        errors: Vec::new(),
    }
}

fn type_of(plan: &Plan, variants: &VariantIndex, row: usize, id: TypeId) -> Type {
    let name = sym(plan.types[row].name);
    match &plan.types[row].kind {
        TypeKind::Prim => Type::Primitive(id, name, Pos::default()),
        TypeKind::Enum(flags) => {
            let rows = variants.rows(id.index() as Number).iter().enumerate();
            Type::Enum {
                name,
                id,
                is_extern: flags.is_extern,
                is_nodebug: flags.is_nodebug,
                variants: rows
                    .map(|(i, &row)| variant(&plan.variants[row], i))
                    .collect(),
                pos: pos(flags.pos),
            }
        }
        TypeKind::Struct(flags, fields) => Type::Struct {
            name,
            id,
            is_extern: flags.is_extern,
            is_nodebug: flags.is_nodebug,
            fields: fields_of(fields),
            pos: pos(flags.pos),
        },
    }
}

fn variant(row: &VariantRow, number: usize) -> Variant {
    Variant {
        name: sym(row.name),
        fullname: sym(row.name),
        id: VariantId(number),
        fields: fields_of(&row.fields),
        pos: Pos::default(),
    }
}

fn fields_of(fields: &Fields) -> sema::Fields {
    match fields {
        Fields::Unit => sema::Fields::Unit,
        Fields::Named(fields) => {
            let field = |(i, &(name, ty)): (usize, &(Number, Number))| StructField {
                name: sym(name),
                id: FieldId(i),
                ty: typeid(ty),
            };
            sema::Fields::Struct(StructFields {
                fields: fields.iter().enumerate().map(field).collect(),
            })
        }
        Fields::Tuple(fields) => {
            let field = |(i, &ty): (usize, &Number)| TupleField {
                id: FieldId(i),
                ty: typeid(ty),
            };
            sema::Fields::Tuple(TupleFields {
                fields: fields.iter().enumerate().map(field).collect(),
            })
        }
    }
}

fn termenv(plan: &Plan) -> TermEnv {
    TermEnv {
        terms: plan
            .terms
            .iter()
            .enumerate()
            .map(|(i, row)| term(row, TermId(i)))
            .collect(),
        term_map: StableMap::default(),
        rules: Vec::new(),
        rule_map: StableMap::default(),
        converters: StableMap::default(),
        expand_internal_extractors: false,
    }
}

fn term(row: &TermRow, id: TermId) -> Term {
    Term {
        id,
        decl_pos: pos(row.pos),
        name: sym(row.name),
        arg_tys: row.args.iter().map(|&ty| typeid(ty)).collect(),
        ret_ty: typeid(row.ret),
        kind: TermKind::Decl {
            flags: TermFlags {
                pure: false,
                multi: row.multi,
                partial: row.partial,
                rec: false,
            },
            constructor_kind: constructor_kind(row.ctor),
            extractor_kind: extractor_kind(row.xtor, row.infallible),
        },
    }
}

fn constructor_kind(ctor: Function) -> Option<ConstructorKind> {
    match ctor {
        Function::None => None,
        Function::Internal => Some(ConstructorKind::InternalConstructor),
        Function::External(name) => Some(ConstructorKind::ExternalConstructor { name: sym(name) }),
    }
}

fn extractor_kind(xtor: Function, infallible: bool) -> Option<ExtractorKind> {
    match xtor {
        Function::None => None,
        Function::Internal => Some(ExtractorKind::InternalExtractor {
            template: ast::Pattern::Wildcard {
                pos: Pos::default(),
            },
        }),
        Function::External(name) => Some(ExtractorKind::ExternalExtractor {
            name: sym(name),
            infallible,
            pos: Pos::default(),
        }),
    }
}

fn ruleset(generated: &Generated) -> RuleSet {
    let rows = generated.bindings.iter().enumerate();
    let bindings: Vec<Binding> = rows.map(|(i, row)| binding(row, i)).collect();
    let mut ruleset = RuleSet::default();
    for (i, binding) in bindings.iter().enumerate() {
        ruleset
            .binding_map
            .insert(binding.clone(), binding_id(i as Number));
    }
    ruleset.bindings = bindings;
    ruleset
}

/// A binding's row. A constructor's `instance` is its row, so that equal calls stay two bindings.
fn binding(row: &BindingRow, number: usize) -> Binding {
    let sources = binding_ids(&row.sources);
    match row.kind {
        BindingKind::Bool(val) => Binding::ConstBool {
            val,
            ty: TypeId::BOOL,
        },
        BindingKind::Int { ty, value } => Binding::ConstInt {
            val: value,
            ty: typeid(ty),
        },
        BindingKind::Prim(val) => Binding::ConstPrim { val: sym(val) },
        BindingKind::Arg(index) => Binding::Argument {
            index: tuple_index(index as usize),
        },
        BindingKind::Extract(term) => Binding::Extractor {
            term: termid(term),
            parameter: sources[0],
        },
        BindingKind::Construct(term) => Binding::Constructor {
            term: termid(term),
            parameters: sources.into(),
            instance: number as u32,
        },
        BindingKind::Iter => Binding::Iterator { source: sources[0] },
        BindingKind::Variant { ty, variant } => Binding::MakeVariant {
            ty: typeid(ty),
            variant: VariantId(variant as usize),
            fields: sources.into(),
        },
        BindingKind::Struct(ty) => Binding::MakeStruct {
            ty: typeid(ty),
            fields: sources.into(),
        },
        BindingKind::Some => Binding::MakeSome { inner: sources[0] },
        BindingKind::MatchSome => Binding::MatchSome { source: sources[0] },
        BindingKind::MatchTuple(field) => Binding::MatchTuple {
            source: sources[0],
            field: tuple_index(field.into()),
        },
        // The plan doesn't name the variant, and codegen.rs doesn't ask for it.
        BindingKind::MatchVariant(field) => Binding::MatchVariant {
            source: sources[0],
            variant: VariantId(0),
            field: tuple_index(field.into()),
        },
        BindingKind::ExtractStruct(field) => Binding::ExtractStruct {
            source: sources[0],
            field: tuple_index(field.into()),
        },
    }
}

fn block(plan: &Plan, variants: &VariantIndex, generated: &Generated) -> Block {
    let mut rows = Rows {
        plan,
        variants,
        rest: &generated.block,
    };
    rows.block(0)
}

/// The rows of a block table that haven't been made into steps and arms yet.
struct Rows<'p> {
    plan: &'p Plan<'p>,
    variants: &'p VariantIndex,
    rest: &'p [BlockRow],
}

impl<'p> Rows<'p> {
    /// The next row, if it stands at the given level.
    fn next_at(&mut self, level: Number) -> Option<&'p RowKind> {
        let (row, rest) = self.rest.split_first()?;
        if row.level != level {
            return None;
        }
        self.rest = rest;
        Some(&row.kind)
    }

    fn block(&mut self, level: Number) -> Block {
        let mut steps = Vec::new();
        while let Some(row) = self.next_at(level) {
            let RowKind::Step { step, bind_order } = row else {
                unreachable!("refusal 3 has been judged")
            };
            let bind_order = binding_ids(bind_order);
            steps.push(EvalStep {
                bind_order,
                check: self.control_flow(level, *step),
            });
        }
        Block { steps }
    }

    fn control_flow(&mut self, level: Number, step: Step) -> ControlFlow {
        match step {
            Step::Match { source } => ControlFlow::Match {
                source: binding_id(source),
                arms: self.arms(level + 1),
            },
            Step::Equal { a, b } => ControlFlow::Equal {
                a: binding_id(a),
                b: binding_id(b),
                body: self.block(level + 1),
            },
            Step::Loop { result } => ControlFlow::Loop {
                result: binding_id(result),
                body: self.block(level + 1),
            },
            Step::Return { result, pos: row } => ControlFlow::Return {
                pos: pos(row),
                result: binding_id(result),
            },
        }
    }

    fn arms(&mut self, level: Number) -> Vec<MatchArm> {
        let mut arms = Vec::new();
        while let Some(row) = self.next_at(level) {
            let RowKind::Arm { arm, bindings } = row else {
                unreachable!("refusal 3 has been judged")
            };
            arms.push(MatchArm {
                constraint: self.constraint(*arm),
                bindings: bindings
                    .iter()
                    .map(|binding| binding.map(binding_id))
                    .collect(),
                body: self.block(level + 1),
            });
        }
        arms
    }

    fn constraint(&self, arm: Arm) -> Constraint {
        match arm {
            Arm::Bool(val) => Constraint::ConstBool {
                val,
                ty: TypeId::BOOL,
            },
            Arm::Int { ty, value } => Constraint::ConstInt {
                val: value,
                ty: typeid(ty),
            },
            Arm::Prim(val) => Constraint::ConstPrim { val: sym(val) },
            Arm::Variant { ty, variant } => Constraint::Variant {
                ty: typeid(ty),
                variant: VariantId(variant as usize),
                fields: tuple_index(self.plan.variant_fields(self.variants, ty, variant).len()),
            },
            Arm::Struct(ty) => Constraint::Struct {
                ty: typeid(ty),
                fields: tuple_index(self.plan.struct_fields(ty).len()),
            },
            Arm::Some => Constraint::Some,
        }
    }
}
