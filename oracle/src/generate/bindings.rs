//! Bindings of a generated term: made one by one, each source lower than its binding.

use crate::environment::Sizes;
use crate::random::Random;
use crate::rows::{BUILTINS, Binding, Constraint, Fields, Function, Plan, Term};
use crate::texts;

pub const MOST_BINDINGS: usize = 1024;

/// What an expression is, as far as scheduling cares.
#[derive(Clone, PartialEq)]
pub enum Sort {
    Value(usize),
    Tuple(Vec<usize>),
    Option(Box<Sort>),
    Iterator(Box<Sort>),
    Unknown,
}

/// The bindings made so far, with what is known of them.
pub struct Bindings<'a> {
    pub random: &'a mut Random,
    pub plan: &'a Plan,
    pub sizes: &'a Sizes,
    pub term: &'a Term,
    pub rows: Vec<Binding>,
    pub sorts: Vec<Sort>,
    /// An estimate of the length of each expression, written through its sources.
    lengths: Vec<usize>,
    /// Argument indices not bound yet: two `arg` of one index are refused.
    arguments: Vec<usize>,
}

impl<'a> Bindings<'a> {
    pub fn new(
        random: &'a mut Random,
        plan: &'a Plan,
        sizes: &'a Sizes,
        term: &'a Term,
    ) -> Bindings<'a> {
        let arguments = (0..term.args.len()).collect();
        let (rows, sorts, lengths) = (Vec::new(), Vec::new(), Vec::new());
        Bindings {
            random,
            plan,
            sizes,
            term,
            rows,
            sorts,
            lengths,
            arguments,
        }
    }

    /// Room for an expression of a few bindings.
    pub fn has_room(&self) -> bool {
        self.rows.len() + 40 < MOST_BINDINGS
    }

    pub fn add(&mut self, binding: Binding, sort: Sort) -> usize {
        let sources = sources(&binding);
        let below: usize = sources
            .iter()
            .map(|&s| self.lengths[s])
            .fold(0, usize::saturating_add);
        self.lengths.push(below.saturating_add(16));
        self.rows.push(binding);
        self.sorts.push(sort);
        self.rows.len() - 1
    }

    /// Any binding, as a source: a short expression if the one drawn is too long.
    pub fn source(&mut self) -> usize {
        let count = self.rows.len();
        for _ in 0..4 {
            let at = match self.random.below(4) {
                0 => self.random.below(count.min(4)),
                1 => count - 1 - self.random.below(count.min(4)),
                _ => self.random.below(count),
            };
            if self.lengths[at] < self.sizes.expression {
                return at;
            }
        }
        self.random.below(count.min(2))
    }

    pub fn sources(&mut self, count: usize) -> Vec<usize> {
        (0..count).map(|_| self.source()).collect()
    }

    /// A binding for each argument, of the generated term's types.
    pub fn add_arguments(&mut self) -> Vec<usize> {
        let indices = std::mem::take(&mut self.arguments);
        let types = self.term.args.clone();
        let argument =
            |&index: &usize| self.add(Binding::Argument { index }, Sort::Value(types[index]));
        indices.iter().map(argument).collect()
    }

    /// An expression of type `ty`, from the values of `scope` or made anew.
    pub fn value(&mut self, ty: usize, scope: &[usize], depth: usize) -> usize {
        let known: Vec<usize> = self.known(ty, scope);
        if !known.is_empty() && self.random.chance(if depth == 0 { 90 } else { 50 }) {
            return *self.random.pick(&known);
        }
        if depth > 0 && self.has_room() && self.random.chance(40) {
            if let Some(call) = self.constructed(ty, scope, depth - 1) {
                return call;
            }
        }
        self.made(ty, scope, depth.saturating_sub(1))
    }

    /// Values of type `ty` in scope; now and then those out of scope too.
    fn known(&mut self, ty: usize, scope: &[usize]) -> Vec<usize> {
        let wanted = Sort::Value(ty);
        if self.random.chance(8) {
            return (0..self.rows.len())
                .filter(|&b| self.sorts[b] == wanted)
                .collect();
        }
        scope
            .iter()
            .copied()
            .filter(|&b| self.sorts[b] == wanted)
            .collect()
    }

    fn constructed(&mut self, ty: usize, scope: &[usize], depth: usize) -> Option<usize> {
        let terms = self.terms(|term| {
            term.ret == ty && term.ctor != Function::Absent && !term.multi && !term.partial
        });
        let small: Vec<usize> = terms
            .into_iter()
            .filter(|&t| self.plan.terms[t].args.len() <= 4)
            .collect();
        if small.is_empty() {
            return None;
        }
        let term = *self.random.pick(&small);
        Some(self.construct(term, scope, depth))
    }

    pub fn construct(&mut self, term: usize, scope: &[usize], depth: usize) -> usize {
        let data = &self.plan.terms[term];
        let parameters = data
            .args
            .iter()
            .map(|&ty| self.value(ty, scope, depth))
            .collect();
        let result = Sort::Value(data.ret);
        let sort = if data.multi {
            Sort::Iterator(Box::new(result))
        } else if data.partial {
            Sort::Option(Box::new(result))
        } else {
            result
        };
        self.add(Binding::Constructor { term, parameters }, sort)
    }

    pub fn extract(&mut self, term: usize, parameter: usize) -> usize {
        let data = &self.plan.terms[term];
        let result = match data.args[..] {
            [ty] => Sort::Value(ty),
            _ => Sort::Tuple(data.args.clone()),
        };
        let infallible = data.infallible && data.xtor != Function::Internal;
        let sort = if data.multi {
            Sort::Iterator(Box::new(result))
        } else if !infallible {
            Sort::Option(Box::new(result))
        } else {
            result
        };
        self.add(Binding::Extractor { term, parameter }, sort)
    }

    /// A value written out: a constant, variant or struct.
    fn made(&mut self, ty: usize, scope: &[usize], depth: usize) -> usize {
        let sort = Sort::Value(ty);
        let fits = |fields: &Fields| fields.types().len() <= 4;
        if let Some(fields) = self.plan.struct_fields(ty).filter(|fields| fits(fields)) {
            if (depth > 0 && self.has_room()) || fields.types().is_empty() {
                let types = fields.types();
                let fields = types
                    .iter()
                    .map(|&ty| self.value(ty, scope, depth))
                    .collect();
                return self.add(Binding::MakeStruct { ty, fields }, sort);
            }
        }
        let variants = self.plan.variants_of(ty);
        if !variants.is_empty() {
            let variant = self.random.below(variants.len());
            let types = variants[variant].fields.types();
            if types.is_empty() || (depth > 0 && self.has_room() && types.len() <= 4) {
                let fields = types
                    .iter()
                    .map(|&ty| self.value(ty, scope, depth))
                    .collect();
                return self.add(
                    Binding::MakeVariant {
                        ty,
                        variant,
                        fields,
                    },
                    sort,
                );
            }
        }
        let constant = self.constant(ty);
        self.add(constant, sort)
    }

    fn constant(&mut self, ty: usize) -> Binding {
        let val = self.random.below(self.plan.syms.len());
        match ty {
            0 if self.random.chance(80) => Binding::ConstBool {
                val: self.random.chance(50),
            },
            _ if ty < BUILTINS || self.random.chance(20) => Binding::ConstInt {
                ty,
                val: texts::value(self.random),
            },
            _ => Binding::ConstPrim { val },
        }
    }

    pub fn terms(&self, wanted: impl Fn(&Term) -> bool) -> Vec<usize> {
        let all = self.plan.terms.iter().enumerate();
        all.filter(|(_, term)| wanted(term))
            .map(|(t, _)| t)
            .collect()
    }

    /// A binding of any kind over any lower bindings.
    pub fn add_wild(&mut self) -> usize {
        let binding = (0..8).find_map(|_| self.wild());
        let binding = binding.unwrap_or(Binding::ConstBool {
            val: self.random.chance(50),
        });
        let sort = match &binding {
            Binding::ConstBool { .. } => Sort::Value(0),
            Binding::ConstInt { ty, .. } => Sort::Value(*ty),
            Binding::Argument { index } => Sort::Value(self.term.args[*index]),
            _ => Sort::Unknown,
        };
        self.add(binding, sort)
    }

    /// None where the kind drawn has no binding here.
    fn wild(&mut self) -> Option<Binding> {
        if self.random.chance(self.sizes.integers) {
            return Some(Binding::ConstInt {
                ty: self.any_type(),
                val: texts::value(self.random),
            });
        }
        match self.random.below(if self.rows.is_empty() { 6 } else { 16 }) {
            0 => Some(Binding::ConstBool {
                val: self.random.chance(50),
            }),
            1 => Some(Binding::ConstInt {
                ty: self.any_type(),
                val: texts::value(self.random),
            }),
            2 => Some(Binding::ConstPrim {
                val: self.random.below(self.plan.syms.len()),
            }),
            3 => self.wild_argument(),
            4 | 14 => self.wild_variant(),
            5 => self.wild_struct(),
            6 => self.wild_extract(),
            7 | 8 | 15 => self.wild_construct(),
            9 => Some(Binding::Iterator {
                source: self.source(),
            }),
            10 => Some(Binding::MakeSome {
                inner: self.source(),
            }),
            11 => Some(Binding::MatchSome {
                source: self.source(),
            }),
            12 => Some(Binding::MatchTuple {
                source: self.source(),
                field: self.field(),
            }),
            _ if self.random.chance(50) => Some(Binding::MatchVariant {
                source: self.source(),
                field: self.field(),
            }),
            _ => Some(Binding::ExtractStruct {
                source: self.source(),
                field: self.field(),
            }),
        }
    }

    fn any_type(&mut self) -> usize {
        let count = if self.random.chance(70) {
            BUILTINS
        } else {
            self.plan.type_count()
        };
        self.random.below(count)
    }

    fn field(&mut self) -> usize {
        if self.random.chance(20) {
            *self.random.pick(&[9, 10, 31, 99, 100, 254, 255])
        } else {
            self.random.below(4)
        }
    }

    fn wild_argument(&mut self) -> Option<Binding> {
        if self.arguments.is_empty() {
            return None;
        }
        let at = self.random.below(self.arguments.len());
        Some(Binding::Argument {
            index: self.arguments.swap_remove(at),
        })
    }

    /// Sources for a list of fields: none fit if there are fields but no binding yet.
    fn wild_fields(&mut self, count: usize) -> Option<Vec<usize>> {
        if count > 0 && self.rows.is_empty() {
            None
        } else {
            Some(self.sources(count))
        }
    }

    fn wild_variant(&mut self) -> Option<Binding> {
        let Constraint::Variant { ty, variant } = self.any_variant()? else {
            return None;
        };
        let count = self.plan.variants_of(ty)[variant].fields.types().len();
        Some(Binding::MakeVariant {
            ty,
            variant,
            fields: self.wild_fields(count)?,
        })
    }

    fn wild_struct(&mut self) -> Option<Binding> {
        let Constraint::Struct { ty } = self.any_struct()? else {
            return None;
        };
        let count = self.plan.struct_fields(ty)?.types().len();
        Some(Binding::MakeStruct {
            ty,
            fields: self.wild_fields(count)?,
        })
    }

    fn wild_extract(&mut self) -> Option<Binding> {
        let terms = self.terms(|term| term.xtor != Function::Absent);
        if terms.is_empty() {
            return None;
        }
        Some(Binding::Extractor {
            term: *self.random.pick(&terms),
            parameter: self.source(),
        })
    }

    fn wild_construct(&mut self) -> Option<Binding> {
        let terms = self.terms(|term| term.ctor != Function::Absent);
        if terms.is_empty() {
            return None;
        }
        let term = *self.random.pick(&terms);
        let parameters = self.wild_fields(self.plan.terms[term].args.len())?;
        Some(Binding::Constructor { term, parameters })
    }

    pub fn any_variant(&mut self) -> Option<Constraint> {
        if self.plan.variants.is_empty() {
            return None;
        }
        let row = self.random.below(self.plan.variants.len());
        let ty = self.plan.variants[row].ty;
        let variant = self.plan.variants[..row]
            .iter()
            .filter(|v| v.ty == ty)
            .count();
        Some(Constraint::Variant { ty, variant })
    }

    pub fn any_struct(&mut self) -> Option<Constraint> {
        let types = BUILTINS..self.plan.type_count();
        let structs: Vec<usize> = types
            .filter(|&ty| self.plan.struct_fields(ty).is_some())
            .collect();
        if structs.is_empty() {
            return None;
        }
        Some(Constraint::Struct {
            ty: *self.random.pick(&structs),
        })
    }

    /// The number of bindings that an arm's list has.
    pub fn arm_length(&self, constraint: Constraint) -> usize {
        match constraint {
            Constraint::ConstBool { .. }
            | Constraint::ConstInt { .. }
            | Constraint::ConstPrim { .. } => 0,
            Constraint::Variant { ty, variant } => {
                self.plan.variants_of(ty)[variant].fields.types().len()
            }
            Constraint::Struct { ty } => self
                .plan
                .struct_fields(ty)
                .map_or(0, |fields| fields.types().len()),
            Constraint::Some => 1,
        }
    }
}

pub fn sources(binding: &Binding) -> Vec<usize> {
    match binding {
        Binding::ConstBool { .. }
        | Binding::ConstInt { .. }
        | Binding::ConstPrim { .. }
        | Binding::Argument { .. } => Vec::new(),
        Binding::Extractor {
            parameter: source, ..
        }
        | Binding::Iterator { source }
        | Binding::MakeSome { inner: source }
        | Binding::MatchSome { source }
        | Binding::MatchTuple { source, .. }
        | Binding::MatchVariant { source, .. }
        | Binding::ExtractStruct { source, .. } => vec![*source],
        Binding::Constructor {
            parameters: fields, ..
        }
        | Binding::MakeVariant { fields, .. }
        | Binding::MakeStruct { fields, .. } => fields.clone(),
    }
}
