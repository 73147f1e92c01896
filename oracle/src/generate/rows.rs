//! A plan as the generator builds it, and its layout as tables. This module shares nothing with
//! the oracle's plan reader, since it is what tries that reader. Names are the crate's.

#[derive(Clone, Copy, PartialEq)]
pub struct Options {
    pub nopragmas: bool,
    pub log: bool,
    pub split: bool,
    pub threshold: Option<usize>,
}

#[derive(Clone)]
pub enum Fields {
    Unit,
    /// Name (a sym row) and type of each field.
    Struct(Vec<(usize, usize)>),
    Tuple(Vec<usize>),
}

impl Fields {
    pub fn types(&self) -> Vec<usize> {
        match self {
            Fields::Unit => Vec::new(),
            Fields::Struct(fields) => fields.iter().map(|&(_, ty)| ty).collect(),
            Fields::Tuple(fields) => fields.clone(),
        }
    }
}

#[derive(Clone, Copy)]
pub struct Declared {
    pub is_extern: bool,
    pub is_nodebug: bool,
    pub pos: usize,
}

#[derive(Clone)]
pub enum TypeKind {
    Primitive,
    Enum(Declared),
    Struct(Declared, Fields),
}

#[derive(Clone)]
pub struct Type {
    pub name: usize,
    pub kind: TypeKind,
}

#[derive(Clone)]
pub struct Variant {
    pub ty: usize,
    pub name: usize,
    pub fields: Fields,
}

/// A term's constructor or extractor.
#[derive(Clone, Copy, PartialEq)]
pub enum Function {
    Absent,
    Internal,
    External(usize),
}

#[derive(Clone)]
pub struct Term {
    pub name: usize,
    pub pos: usize,
    pub ret: usize,
    pub multi: bool,
    pub partial: bool,
    pub ctor: Function,
    pub xtor: Function,
    pub infallible: bool,
    pub args: Vec<usize>,
}

#[derive(Clone)]
pub enum Binding {
    ConstBool {
        val: bool,
    },
    ConstInt {
        ty: usize,
        val: i128,
    },
    ConstPrim {
        val: usize,
    },
    Argument {
        index: usize,
    },
    Extractor {
        term: usize,
        parameter: usize,
    },
    Constructor {
        term: usize,
        parameters: Vec<usize>,
    },
    Iterator {
        source: usize,
    },
    MakeVariant {
        ty: usize,
        variant: usize,
        fields: Vec<usize>,
    },
    MakeStruct {
        ty: usize,
        fields: Vec<usize>,
    },
    MakeSome {
        inner: usize,
    },
    MatchSome {
        source: usize,
    },
    MatchTuple {
        source: usize,
        field: usize,
    },
    MatchVariant {
        source: usize,
        field: usize,
    },
    ExtractStruct {
        source: usize,
        field: usize,
    },
}

#[derive(Clone, Copy)]
pub enum Constraint {
    ConstBool { val: bool },
    ConstInt { ty: usize, val: i128 },
    ConstPrim { val: usize },
    Variant { ty: usize, variant: usize },
    Struct { ty: usize },
    Some,
}

pub type Block = Vec<Step>;

#[derive(Clone)]
pub struct Step {
    pub bind_order: Vec<usize>,
    pub check: ControlFlow,
}

#[derive(Clone)]
pub enum ControlFlow {
    Match { source: usize, arms: Vec<Arm> },
    Equal { a: usize, b: usize, body: Block },
    Loop { result: usize, body: Block },
    Return { result: usize, pos: usize },
}

#[derive(Clone)]
pub struct Arm {
    pub constraint: Constraint,
    pub bindings: Vec<Option<usize>>,
    pub body: Block,
}

#[derive(Clone)]
pub struct Generated {
    pub term: usize,
    pub bindings: Vec<Binding>,
    pub block: Block,
}

#[derive(Clone)]
pub struct Plan {
    pub options: Options,
    pub files: Vec<String>,
    pub syms: Vec<String>,
    pub positions: Vec<String>,
    pub types: Vec<Type>,
    pub variants: Vec<Variant>,
    pub terms: Vec<Term>,
    pub generated: Vec<Generated>,
}

/// `BuiltinType::ALL.len()`: table rows of types follow the builtins.
pub const BUILTINS: usize = 13;

impl Plan {
    pub fn empty() -> Plan {
        Plan {
            options: Options {
                nopragmas: false,
                log: false,
                split: false,
                threshold: None,
            },
            files: Vec::new(),
            syms: Vec::new(),
            positions: Vec::new(),
            types: Vec::new(),
            variants: Vec::new(),
            terms: Vec::new(),
            generated: Vec::new(),
        }
    }

    /// The number of types, builtins included.
    pub fn type_count(&self) -> usize {
        BUILTINS + self.types.len()
    }

    /// The table row of a type, none for a builtin.
    pub fn type_row(&self, ty: usize) -> Option<&Type> {
        ty.checked_sub(BUILTINS).map(|row| &self.types[row])
    }

    /// The rows of the variants of an enum, in the order that numbers them.
    pub fn variants_of(&self, ty: usize) -> Vec<&Variant> {
        self.variants
            .iter()
            .filter(|variant| variant.ty == ty)
            .collect()
    }

    pub fn is_enum(&self, ty: usize) -> bool {
        matches!(
            self.type_row(ty),
            Some(Type {
                kind: TypeKind::Enum(_),
                ..
            })
        )
    }

    pub fn struct_fields(&self, ty: usize) -> Option<&Fields> {
        match self.type_row(ty) {
            Some(Type {
                kind: TypeKind::Struct(_, fields),
                ..
            }) => Some(fields),
            _ => None,
        }
    }

    pub fn tables(&self) -> Document {
        let mut tables = vec![
            Table::new(OPTIONS, vec![options_row(&self.options)]),
            Table::new("file", self.files.clone()),
            Table::new("sym", self.syms.clone()),
            Table::new("pos", self.positions.clone()),
            Table::new(TYPES, self.types.iter().map(type_row).collect()),
            Table::new(VARIANTS, self.variants.iter().map(variant_row).collect()),
            Table::new(TERMS, self.terms.iter().map(term_row).collect()),
        ];
        for generated in &self.generated {
            let mut rows = Vec::new();
            block_rows(&generated.block, 0, &mut rows);
            tables.push(Table::new("term", vec![generated.term.to_string()]));
            tables.push(Table::new(
                BINDINGS,
                generated.bindings.iter().map(binding_row).collect(),
            ));
            tables.push(Table::new(BLOCK, rows));
        }
        Document { tables }
    }

    pub fn bytes(&self) -> Vec<u8> {
        self.tables().bytes()
    }
}

pub const OPTIONS: &str = "nopragmas log split threshold";
pub const TYPES: &str = "kind name extern nodebug pos list";
pub const VARIANTS: &str = "type name shape list";
pub const TERMS: &str = "name pos ret multi partial ctor xtor infallible list";
pub const BINDINGS: &str = "kind a b list";
pub const BLOCK: &str = "level kind a b list";

#[derive(Clone)]
pub struct Table {
    pub names: String,
    pub rows: Vec<String>,
}

impl Table {
    fn new(names: &str, rows: Vec<String>) -> Table {
        Table {
            names: names.to_string(),
            rows,
        }
    }
}

/// A plan as lines of text, which may be changed into lines that no plan has.
#[derive(Clone)]
pub struct Document {
    pub tables: Vec<Table>,
}

impl Document {
    pub fn bytes(&self) -> Vec<u8> {
        let mut bytes = Vec::new();
        for table in &self.tables {
            for line in std::iter::once(&table.names).chain(&table.rows) {
                bytes.extend_from_slice(line.as_bytes());
                bytes.push(b'\n');
            }
            bytes.push(b'\n');
        }
        bytes
    }
}

fn flag(value: bool) -> &'static str {
    if value { "1" } else { "0" }
}

pub fn list<T: ToString>(values: &[T]) -> String {
    if values.is_empty() {
        return "-".to_string();
    }
    values
        .iter()
        .map(T::to_string)
        .collect::<Vec<_>>()
        .join(",")
}

fn field_list(fields: &Fields) -> String {
    match fields {
        Fields::Unit => "-".to_string(),
        Fields::Struct(fields) => list(
            &fields
                .iter()
                .map(|(name, ty)| format!("{name}:{ty}"))
                .collect::<Vec<_>>(),
        ),
        Fields::Tuple(fields) => list(fields),
    }
}

fn shape(fields: &Fields) -> &'static str {
    match fields {
        Fields::Unit => "unit",
        Fields::Struct(_) => "named",
        Fields::Tuple(_) => "tuple",
    }
}

fn options_row(options: &Options) -> String {
    let threshold = options.threshold.map_or("-".to_string(), |n| n.to_string());
    let Options {
        nopragmas,
        log,
        split,
        ..
    } = *options;
    format!(
        "{} {} {} {threshold}",
        flag(nopragmas),
        flag(log),
        flag(split)
    )
}

fn type_row(ty: &Type) -> String {
    let declared = |kind: &str, d: &Declared, list: String| {
        let (is_extern, is_nodebug) = (flag(d.is_extern), flag(d.is_nodebug));
        format!(
            "{kind} {} {is_extern} {is_nodebug} {} {list}",
            ty.name, d.pos
        )
    };
    match &ty.kind {
        TypeKind::Primitive => format!("prim {} - - - -", ty.name),
        TypeKind::Enum(d) => declared("enum", d, "-".to_string()),
        TypeKind::Struct(d, fields) => declared(shape(fields), d, field_list(fields)),
    }
}

fn variant_row(variant: &Variant) -> String {
    let Variant { ty, name, fields } = variant;
    format!("{ty} {name} {} {}", shape(fields), field_list(fields))
}

fn function(function: Function) -> String {
    match function {
        Function::Absent => "-".to_string(),
        Function::Internal => "in".to_string(),
        Function::External(name) => name.to_string(),
    }
}

fn term_row(term: &Term) -> String {
    format!(
        "{} {} {} {} {} {} {} {} {}",
        term.name,
        term.pos,
        term.ret,
        flag(term.multi),
        flag(term.partial),
        function(term.ctor),
        function(term.xtor),
        flag(term.infallible),
        list(&term.args)
    )
}

/// 32 hexadecimal digits of the two's complement.
pub fn hexadecimal(val: i128) -> String {
    format!("{:032x}", val as u128)
}

fn binding_row(binding: &Binding) -> String {
    match binding {
        Binding::ConstBool { val } => format!("bool {} - -", flag(*val)),
        Binding::ConstInt { ty, val } => format!("int {ty} {} -", hexadecimal(*val)),
        Binding::ConstPrim { val } => format!("prim {val} - -"),
        Binding::Argument { index } => format!("arg {index} - -"),
        Binding::Extractor { term, parameter } => format!("extract {term} - {parameter}"),
        Binding::Constructor { term, parameters } => {
            format!("construct {term} - {}", list(parameters))
        }
        Binding::Iterator { source } => format!("iter - - {source}"),
        Binding::MakeVariant {
            ty,
            variant,
            fields,
        } => {
            format!("variant {ty} {variant} {}", list(fields))
        }
        Binding::MakeStruct { ty, fields } => format!("struct {ty} - {}", list(fields)),
        Binding::MakeSome { inner } => format!("some - - {inner}"),
        Binding::MatchSome { source } => format!("matchsome - - {source}"),
        Binding::MatchTuple { source, field } => format!("matchtuple {field} - {source}"),
        Binding::MatchVariant { source, field } => format!("matchvariant {field} - {source}"),
        Binding::ExtractStruct { source, field } => format!("extractstruct {field} - {source}"),
    }
}

fn block_rows(block: &Block, level: usize, rows: &mut Vec<String>) {
    for step in block {
        let order = list(&step.bind_order);
        match &step.check {
            ControlFlow::Match { source, arms } => {
                rows.push(format!("{level} match {source} - {order}"));
                arms.iter().for_each(|arm| arm_rows(arm, level + 1, rows));
            }
            ControlFlow::Equal { a, b, body } => {
                rows.push(format!("{level} equal {a} {b} {order}"));
                block_rows(body, level + 1, rows);
            }
            ControlFlow::Loop { result, body } => {
                rows.push(format!("{level} loop {result} - {order}"));
                block_rows(body, level + 1, rows);
            }
            ControlFlow::Return { result, pos } => {
                rows.push(format!("{level} return {result} {pos} {order}"));
            }
        }
    }
}

fn arm_rows(arm: &Arm, level: usize, rows: &mut Vec<String>) {
    let names = |binding: &Option<usize>| binding.map_or("_".to_string(), |b| b.to_string());
    let bindings = list(&arm.bindings.iter().map(names).collect::<Vec<_>>());
    rows.push(match arm.constraint {
        Constraint::ConstBool { val } => format!("{level} bool {} - {bindings}", flag(val)),
        Constraint::ConstInt { ty, val } => {
            format!("{level} int {ty} {} {bindings}", hexadecimal(val))
        }
        Constraint::ConstPrim { val } => format!("{level} prim {val} - {bindings}"),
        Constraint::Variant { ty, variant } => format!("{level} variant {ty} {variant} {bindings}"),
        Constraint::Struct { ty } => format!("{level} struct {ty} - {bindings}"),
        Constraint::Some => format!("{level} some - - {bindings}"),
    });
    block_rows(&arm.body, level + 1, rows);
}

/// The number of rows that a block takes in its table.
pub fn row_count(block: &Block) -> usize {
    let below = |step: &Step| match &step.check {
        ControlFlow::Match { arms, .. } => arms.iter().map(|arm| 1 + row_count(&arm.body)).sum(),
        ControlFlow::Equal { body, .. } | ControlFlow::Loop { body, .. } => row_count(body),
        ControlFlow::Return { .. } => 0,
    };
    block.iter().map(|step| 1 + below(step)).sum()
}

/// `Codegen::block_weight`.
pub fn block_weight(block: &Block) -> usize {
    let below = |step: &Step| match &step.check {
        ControlFlow::Match { arms, .. } => arms.iter().map(|arm| block_weight(&arm.body)).sum(),
        ControlFlow::Equal { body, .. } | ControlFlow::Loop { body, .. } => block_weight(body),
        ControlFlow::Return { .. } => 0,
    };
    block.iter().map(|step| 1 + below(step)).sum()
}
