//! Counts what plans hold.

use crate::bindings::sources;
use crate::rows::*;
use std::collections::{BTreeMap, BTreeSet};

/// Every feature that is counted, in the report's order.
pub const FEATURES: &[&str] = &[
    "option nopragmas 0",
    "option nopragmas 1",
    "option log 0",
    "option log 1",
    "option split 0",
    "option split 1",
    "threshold -",
    "threshold 0",
    "threshold 1 to 20",
    "threshold 255 to 257",
    "threshold 65535",
    "no file",
    "no sym",
    "no position",
    "no type",
    "no variant",
    "no term",
    "no generated term",
    "no binding",
    "no block row",
    "text with \"",
    "text with \\",
    "text with a brace",
    "text with spaces at both ends",
    "text of spaces",
    "text -",
    "text that is a names line",
    "text like a closure's line",
    "text like an overflow line",
    "text _ => {}",
    "text of 100 bytes and more",
    "type prim",
    "type enum",
    "type unit",
    "type named",
    "type tuple",
    "type extern",
    "type nodebug",
    "type extern and nodebug",
    "named struct without fields",
    "tuple struct without fields",
    "enum without variants",
    "variants of enums interleaved",
    "type that names itself",
    "variant unit",
    "variant named",
    "variant tuple",
    "variant named or tuple without fields",
    "term with ctor -",
    "term with ctor in",
    "term with external ctor",
    "term with xtor -",
    "term with xtor in",
    "term with external xtor",
    "term infallible without external xtor",
    "term multi and partial",
    "term without arguments",
    "term with one argument",
    "term with several arguments",
    "generated Plain",
    "generated Option",
    "generated Iterator",
    "generated with external ctor",
    "generated with parameters by reference",
    "generated twice",
    "several generated terms",
    "binding bool",
    "binding int",
    "binding prim",
    "binding arg",
    "binding extract",
    "binding construct",
    "binding iter",
    "binding variant",
    "binding struct",
    "binding some",
    "binding matchsome",
    "binding matchtuple",
    "binding matchvariant",
    "binding extractstruct",
    "field above 31",
    "field 255",
    "extract by internal xtor",
    "extract Plain",
    "extract Option",
    "extract Iterator",
    "extract of one enum or struct",
    "extract of one other",
    "extract of none",
    "extract of several",
    "construct by internal ctor",
    "construct by external ctor",
    "construct Plain",
    "construct Option",
    "construct Iterator",
    "construct with enum or struct result",
    "construct without parameters",
    "int of bool",
    "int of u8",
    "int of u16",
    "int of u32",
    "int of u64",
    "int of u128",
    "int of usize",
    "int of i8",
    "int of i16",
    "int of i32",
    "int of i64",
    "int of i128",
    "int of isize",
    "int of prim",
    "int of enum",
    "int of struct",
    "reference as a parameter by reference",
    "reference as a parameter by value",
    "reference as a field",
    "reference under some",
    "reference under matchsome",
    "source shared",
    "1,000 nested sources",
    "step match",
    "step equal",
    "step loop",
    "step return",
    "arm bool",
    "arm int",
    "arm prim",
    "arm variant",
    "arm struct",
    "arm some",
    "arm some on a reference",
    "arm that binds a reference",
    "match on a reference",
    "return of a reference",
    "arm with _",
    "arm with _ alone",
    "match with one arm",
    "match with several arms",
    "match with arms of several kinds",
    "match with equal arms",
    "empty root block",
    "empty arm body",
    "empty equal body",
    "empty loop body",
    "root that ends in return",
    "root that ends otherwise",
    "several returns in a block",
    "use of a bound binding",
    "use of an unbound binding",
    "use of a binding out of scope",
    "binding bound again",
    "use of a binding that a one-arm match binds",
    "match on a binding that its own arm binds",
    "iterator call by external extract bound",
    "iterator call by internal extract bound",
    "iterator call by external construct bound",
    "iterator call by internal construct bound",
    "iterator call bound again",
    "iterator call not bound",
    "loop over a bound source",
    "loop over an unbound source",
    "level 63",
    "list of 32 fields",
    "list of 32 arguments",
    "list of 32 sources",
    "list of 32 in bind_order",
    "list of 32 in an arm",
    "64 files",
    "2,048 syms",
    "2,048 positions",
    "256 types",
    "1,024 variants",
    "512 terms",
    "64 generated terms",
    "1,024 bindings",
    "2,048 block rows",
    "plan of 65,536 bytes",
    "plan of 10,000 bytes and more",
    "arm of weight threshold - 1",
    "arm of weight threshold",
    "arm of weight threshold + 1",
    "arm that splits",
    "arm that splits inside another",
    "arm that splits inside two others",
    "plan with ten closures and more",
    "one-arm match above the threshold",
    "split 1 without a closure in an iterator term",
];

/// Those that pairs are made for.
pub const SPLIT: &[&str] = &[
    "option split 0",
    "option split 1",
    "threshold -",
    "threshold 0",
    "threshold 1 to 20",
    "threshold 255 to 257",
    "threshold 65535",
    "text like a closure's line",
    "text like an overflow line",
    "generated Plain",
    "generated Option",
    "generated Iterator",
    "generated twice",
    "several generated terms",
    "binding struct",
    "step loop",
    "arm of weight threshold - 1",
    "arm of weight threshold",
    "arm of weight threshold + 1",
    "arm that splits",
    "arm that splits inside another",
    "arm that splits inside two others",
    "plan with ten closures and more",
    "one-arm match above the threshold",
    "split 1 without a closure in an iterator term",
    "odd literals",
];

/// Those that plans without a schedule fault are made for.
pub const SCHEDULE: &[&str] = &[
    "option split 1",
    "generated Plain",
    "generated Option",
    "generated Iterator",
    "generated twice",
    "several generated terms",
    "binding bool",
    "binding int",
    "binding prim",
    "binding arg",
    "binding extract",
    "binding construct",
    "binding iter",
    "binding variant",
    "binding struct",
    "binding some",
    "binding matchsome",
    "binding matchtuple",
    "binding matchvariant",
    "binding extractstruct",
    "step match",
    "step equal",
    "step loop",
    "step return",
    "arm bool",
    "arm int",
    "arm prim",
    "arm variant",
    "arm struct",
    "arm some",
    "arm with _",
    "match with one arm",
    "match with several arms",
    "several returns in a block",
    "use of a bound binding",
    "use of an unbound binding",
    "use of a binding out of scope",
    "binding bound again",
    "use of a binding that a one-arm match binds",
    "match on a binding that its own arm binds",
    "iterator call by external extract bound",
    "iterator call by internal extract bound",
    "iterator call by external construct bound",
    "iterator call by internal construct bound",
    "iterator call bound again",
    "loop over a bound source",
    "arm that splits",
];

/// What the answers add to the features.
pub const ANSWERS: &[&str] = &[
    "whole text of 65,535 bytes",
    "whole text of 65,536 bytes",
    "whole text of 65,537 bytes",
    "terms text of 65,535 bytes",
    "terms text of 65,536 bytes",
    "terms text of 65,537 bytes",
    "text longer than the buffer",
    "odd literals",
];

#[derive(Default)]
pub struct Features {
    counts: BTreeMap<&'static str, u64>,
    /// How often a size lies between a power of two and the next one, or is 0.
    spread: BTreeMap<(&'static str, u32), u64>,
}

impl Features {
    pub fn add(&mut self, name: &'static str) {
        let known = FEATURES.contains(&name) || ANSWERS.contains(&name);
        assert!(known, "{name} is not among the features");
        *self.counts.entry(name).or_default() += 1;
    }

    fn add_if(&mut self, holds: bool, name: &'static str) {
        if holds {
            self.add(name);
        }
    }

    pub fn add_size(&mut self, name: &'static str, size: usize) {
        *self
            .spread
            .entry((name, usize::BITS - size.leading_zeros()))
            .or_default() += 1;
    }

    /// The sizes' names, each with a least and a most size and the count.
    pub fn sizes_seen(&self) -> impl Iterator<Item = (&'static str, usize, usize, u64)> {
        let bounds = |bits: u32| ((1 << bits) >> 1, (1_usize << bits) - 1);
        let all = self.spread.iter();
        all.map(move |(&(name, bits), &count)| (name, bounds(bits).0, bounds(bits).1, count))
    }

    pub fn get(&self, name: &str) -> u64 {
        self.counts.get(name).copied().unwrap_or(0)
    }

    pub fn count(&mut self, plan: &Plan) {
        self.options(&plan.options);
        self.sizes(plan);
        let texts = plan.files.iter().chain(&plan.syms).chain(&plan.positions);
        texts.for_each(|text| self.text(text));
        self.types(plan);
        self.variants(plan);
        plan.terms.iter().for_each(|term| self.term(term));
        self.generated_terms(plan);
        for generated in &plan.generated {
            self.generated(plan, generated);
        }
        self.closures(plan);
    }

    fn options(&mut self, options: &Options) {
        self.add(if options.nopragmas {
            "option nopragmas 1"
        } else {
            "option nopragmas 0"
        });
        self.add(if options.log {
            "option log 1"
        } else {
            "option log 0"
        });
        self.add(if options.split {
            "option split 1"
        } else {
            "option split 0"
        });
        match options.threshold {
            None => self.add("threshold -"),
            Some(0) => self.add("threshold 0"),
            Some(1..=20) => self.add("threshold 1 to 20"),
            Some(255..=257) => self.add("threshold 255 to 257"),
            Some(65535) => self.add("threshold 65535"),
            Some(_) => {}
        }
    }

    fn sizes(&mut self, plan: &Plan) {
        self.add_if(plan.files.is_empty(), "no file");
        self.add_if(plan.syms.is_empty(), "no sym");
        self.add_if(plan.positions.is_empty(), "no position");
        self.add_if(plan.types.is_empty(), "no type");
        self.add_if(plan.variants.is_empty(), "no variant");
        self.add_if(plan.terms.is_empty(), "no term");
        self.add_if(plan.generated.is_empty(), "no generated term");
        self.add_if(plan.files.len() == 64, "64 files");
        self.add_if(plan.syms.len() == 2048, "2,048 syms");
        self.add_if(plan.positions.len() == 2048, "2,048 positions");
        self.add_if(plan.type_count() == 256, "256 types");
        self.add_if(plan.variants.len() == 1024, "1,024 variants");
        self.add_if(plan.terms.len() == 512, "512 terms");
        self.add_if(plan.generated.len() == 64, "64 generated terms");
        let length = plan.bytes().len();
        self.add_size("bytes of a plan", length);
        self.add_if(length == 65_536, "plan of 65,536 bytes");
        self.add_if(length >= 10_000, "plan of 10,000 bytes and more");
    }

    fn text(&mut self, text: &str) {
        let names = [
            "file", "sym", "pos", "term", OPTIONS, TYPES, VARIANTS, TERMS, BINDINGS, BLOCK,
        ];
        self.add_if(text.contains('"'), "text with \"");
        self.add_if(text.contains('\\'), "text with \\");
        self.add_if(text.contains(['{', '}']), "text with a brace");
        let trimmed = text.trim_matches(' ');
        let both = text.starts_with(' ') && text.ends_with(' ') && !trimmed.is_empty();
        self.add_if(both, "text with spaces at both ends");
        self.add_if(trimmed.is_empty(), "text of spaces");
        self.add_if(text == "-", "text -");
        self.add_if(names.contains(&text), "text that is a names line");
        let closure = text.contains("|| -> bool") || text.contains("__isle_arm_");
        self.add_if(closure, "text like a closure's line");
        self.add_if(
            text.contains("MAX_ISLE_RETURNS"),
            "text like an overflow line",
        );
        self.add_if(text == "_ => {}", "text _ => {}");
        self.add_if(text.len() >= 100, "text of 100 bytes and more");
    }

    fn types(&mut self, plan: &Plan) {
        for (row, ty) in plan.types.iter().enumerate() {
            let number = BUILTINS + row;
            match &ty.kind {
                TypeKind::Primitive => self.add("type prim"),
                TypeKind::Enum(declared) => {
                    self.add("type enum");
                    self.declared(declared);
                    self.add_if(plan.variants_of(number).is_empty(), "enum without variants");
                }
                TypeKind::Struct(declared, fields) => {
                    self.declared(declared);
                    self.struct_fields(fields);
                    self.add_if(fields.types().contains(&number), "type that names itself");
                }
            }
        }
    }

    fn declared(&mut self, declared: &Declared) {
        self.add_if(declared.is_extern, "type extern");
        self.add_if(declared.is_nodebug, "type nodebug");
        self.add_if(
            declared.is_extern && declared.is_nodebug,
            "type extern and nodebug",
        );
    }

    fn struct_fields(&mut self, fields: &Fields) {
        let none = fields.types().is_empty();
        self.add_if(fields.types().len() == 32, "list of 32 fields");
        match fields {
            Fields::Unit => self.add("type unit"),
            Fields::Struct(_) => {
                self.add("type named");
                self.add_if(none, "named struct without fields");
            }
            Fields::Tuple(_) => {
                self.add("type tuple");
                self.add_if(none, "tuple struct without fields");
            }
        }
    }

    fn variants(&mut self, plan: &Plan) {
        let mut ended = BTreeSet::new();
        let mut last = None;
        let mut interleaved = false;
        for variant in &plan.variants {
            if last != Some(variant.ty) {
                ended.extend(last);
                interleaved |= ended.contains(&variant.ty);
                last = Some(variant.ty);
            }
            let none = variant.fields.types().is_empty();
            self.add_if(variant.fields.types().len() == 32, "list of 32 fields");
            self.add_if(
                variant.fields.types().contains(&variant.ty),
                "type that names itself",
            );
            match variant.fields {
                Fields::Unit => self.add("variant unit"),
                Fields::Struct(_) => self.add("variant named"),
                Fields::Tuple(_) => self.add("variant tuple"),
            }
            let empty = none && !matches!(variant.fields, Fields::Unit);
            self.add_if(empty, "variant named or tuple without fields");
        }
        self.add_if(interleaved, "variants of enums interleaved");
    }

    fn term(&mut self, term: &Term) {
        self.add(match term.ctor {
            Function::Absent => "term with ctor -",
            Function::Internal => "term with ctor in",
            Function::External(_) => "term with external ctor",
        });
        self.add(match term.xtor {
            Function::Absent => "term with xtor -",
            Function::Internal => "term with xtor in",
            Function::External(_) => "term with external xtor",
        });
        let external = matches!(term.xtor, Function::External(_));
        self.add_if(
            term.infallible && !external,
            "term infallible without external xtor",
        );
        self.add_if(term.multi && term.partial, "term multi and partial");
        self.add_if(term.args.len() == 32, "list of 32 arguments");
        self.add(match term.args.len() {
            0 => "term without arguments",
            1 => "term with one argument",
            _ => "term with several arguments",
        });
    }

    fn generated_terms(&mut self, plan: &Plan) {
        let terms: BTreeSet<usize> = plan
            .generated
            .iter()
            .map(|generated| generated.term)
            .collect();
        self.add_if(terms.len() < plan.generated.len(), "generated twice");
        self.add_if(terms.len() > 1, "several generated terms");
    }

    fn generated(&mut self, plan: &Plan, generated: &Generated) {
        let term = &plan.terms[generated.term];
        self.add(match (term.multi, term.partial) {
            (true, _) => "generated Iterator",
            (false, true) => "generated Option",
            (false, false) => "generated Plain",
        });
        let external = matches!(term.ctor, Function::External(_));
        self.add_if(external, "generated with external ctor");
        let by_reference = term.args.iter().any(|&ty| is_reference(plan, ty));
        self.add_if(by_reference, "generated with parameters by reference");
        self.add_if(generated.bindings.is_empty(), "no binding");
        self.add_if(generated.bindings.len() == 1024, "1,024 bindings");
        self.add_if(row_count(&generated.block) == 2048, "2,048 block rows");
        self.bindings(plan, &generated.bindings);
        self.root(&generated.block);
        self.add_size("block rows", row_count(&generated.block));
        let mut walk = Walk {
            features: self,
            plan,
            bindings: &generated.bindings,
            bound: BTreeSet::new(),
            by_pattern: BTreeSet::new(),
            ever: BTreeSet::new(),
            deepest: 0,
        };
        walk.block(&generated.block, 0);
        let deepest = walk.deepest;
        self.add_size("deepest level", deepest);
    }

    fn root(&mut self, block: &Block) {
        self.add_if(block.is_empty(), "no block row");
        self.add_if(block.is_empty(), "empty root block");
        match block.last() {
            Some(Step {
                check: ControlFlow::Return { .. },
                ..
            }) => {
                self.add("root that ends in return");
            }
            _ => self.add("root that ends otherwise"),
        }
    }

    fn bindings(&mut self, plan: &Plan, bindings: &[Binding]) {
        let mut uses = vec![0; bindings.len()];
        let mut depth = vec![1; bindings.len()];
        for (number, binding) in bindings.iter().enumerate() {
            let sources = sources(binding);
            self.add_size("sources in a list", sources.len());
            self.add_if(sources.len() == 32, "list of 32 sources");
            for source in sources {
                uses[source] += 1;
                depth[number] = depth[number].max(depth[source] + 1);
            }
            self.binding(plan, binding);
            self.references(plan, bindings, binding);
        }
        self.add_if(uses.iter().any(|&uses| uses > 1), "source shared");
        let deepest = depth.iter().copied().max().unwrap_or(0);
        self.add_size("nested sources", deepest);
        self.add_if(deepest >= 1000, "1,000 nested sources");
    }

    fn binding(&mut self, plan: &Plan, binding: &Binding) {
        match binding {
            Binding::ConstBool { .. } => self.add("binding bool"),
            Binding::ConstInt { ty, .. } => {
                self.add("binding int");
                self.integer(plan, *ty);
            }
            Binding::ConstPrim { .. } => self.add("binding prim"),
            Binding::Argument { .. } => self.add("binding arg"),
            Binding::Extractor { term, .. } => self.extract(plan, &plan.terms[*term]),
            Binding::Constructor { term, .. } => self.construct(plan, &plan.terms[*term]),
            Binding::Iterator { .. } => self.add("binding iter"),
            Binding::MakeVariant { .. } => self.add("binding variant"),
            Binding::MakeStruct { .. } => self.add("binding struct"),
            Binding::MakeSome { .. } => self.add("binding some"),
            Binding::MatchSome { .. } => self.add("binding matchsome"),
            Binding::MatchTuple { field, .. } => self.field("binding matchtuple", *field),
            Binding::MatchVariant { field, .. } => self.field("binding matchvariant", *field),
            Binding::ExtractStruct { field, .. } => self.field("binding extractstruct", *field),
        }
    }

    /// The places of a binding where codegen.rs asks whether a source is a reference.
    fn references(&mut self, plan: &Plan, bindings: &[Binding], binding: &Binding) {
        let is_marked = |source: &usize| is_reference_call(plan, &bindings[*source]);
        let mut parameter = |source: &usize, ty: usize| {
            if is_marked(source) {
                self.add(match is_reference(plan, ty) {
                    true => "reference as a parameter by reference",
                    false => "reference as a parameter by value",
                });
            }
        };
        match binding {
            Binding::Extractor {
                term,
                parameter: source,
            } => {
                parameter(source, plan.terms[*term].ret);
            }
            Binding::Constructor { term, parameters } => {
                let types = &plan.terms[*term].args;
                parameters
                    .iter()
                    .zip(types)
                    .for_each(|(source, &ty)| parameter(source, ty));
            }
            Binding::MakeVariant { fields, .. } | Binding::MakeStruct { fields, .. } => {
                self.add_if(fields.iter().any(is_marked), "reference as a field");
            }
            Binding::MakeSome { inner } => self.add_if(is_marked(inner), "reference under some"),
            Binding::MatchSome { source } => {
                self.add_if(is_marked(source), "reference under matchsome");
            }
            _ => {}
        }
    }

    fn field(&mut self, name: &'static str, field: usize) {
        self.add(name);
        self.add_if(field > 31, "field above 31");
        self.add_if(field == 255, "field 255");
    }

    fn integer(&mut self, plan: &Plan, ty: usize) {
        const NAMES: [&str; BUILTINS] = [
            "int of bool",
            "int of u8",
            "int of u16",
            "int of u32",
            "int of u64",
            "int of u128",
            "int of usize",
            "int of i8",
            "int of i16",
            "int of i32",
            "int of i64",
            "int of i128",
            "int of isize",
        ];
        self.add(match plan.type_row(ty).map(|row| &row.kind) {
            None => NAMES[ty],
            Some(TypeKind::Primitive) => "int of prim",
            Some(TypeKind::Enum(_)) => "int of enum",
            Some(TypeKind::Struct(..)) => "int of struct",
        });
    }

    fn extract(&mut self, plan: &Plan, term: &Term) {
        self.add("binding extract");
        let external = matches!(term.xtor, Function::External(_));
        self.add_if(!external, "extract by internal xtor");
        self.add(match (term.multi, term.infallible && external) {
            (true, _) => "extract Iterator",
            (false, true) => "extract Plain",
            (false, false) => "extract Option",
        });
        self.add(match term.args[..] {
            [] => "extract of none",
            [ty] if is_reference(plan, ty) => "extract of one enum or struct",
            [_] => "extract of one other",
            _ => "extract of several",
        });
    }

    fn construct(&mut self, plan: &Plan, term: &Term) {
        self.add("binding construct");
        self.add(match term.ctor {
            Function::External(_) => "construct by external ctor",
            _ => "construct by internal ctor",
        });
        self.add(match (term.multi, term.partial) {
            (true, _) => "construct Iterator",
            (false, true) => "construct Option",
            (false, false) => "construct Plain",
        });
        self.add_if(
            is_reference(plan, term.ret),
            "construct with enum or struct result",
        );
        self.add_if(term.args.is_empty(), "construct without parameters");
    }

    fn closures(&mut self, plan: &Plan) {
        let threshold = plan.options.threshold.unwrap_or(256);
        for generated in &plan.generated {
            if !plan.options.split || !plan.terms[generated.term].multi {
                continue;
            }
            let mut closures = Closures {
                features: &mut *self,
                threshold,
                opened: 0,
            };
            closures.block(&generated.block, 0);
            let opened = closures.opened;
            self.add_size("closures of a term", opened);
            self.add_if(opened >= 10, "plan with ten closures and more");
            self.add_if(opened == 0, "split 1 without a closure in an iterator term");
        }
    }
}

fn is_reference(plan: &Plan, ty: usize) -> bool {
    plan.is_enum(ty) || plan.struct_fields(ty).is_some()
}

/// A call whose result codegen.rs marks as a reference.
fn is_reference_call(plan: &Plan, binding: &Binding) -> bool {
    match binding {
        Binding::Constructor { term, .. } => is_reference(plan, plan.terms[*term].ret),
        Binding::Extractor { term, .. } => {
            matches!(plan.terms[*term].args[..], [ty] if is_reference(plan, ty))
        }
        _ => false,
    }
}

/// Goes through a block as codegen.rs does, with the set of bound bindings.
struct Walk<'a> {
    features: &'a mut Features,
    plan: &'a Plan,
    bindings: &'a [Binding],
    bound: BTreeSet<usize>,
    /// Those that the patterns of one-arm matches bound.
    by_pattern: BTreeSet<usize>,
    ever: BTreeSet<usize>,
    deepest: usize,
}

impl Walk<'_> {
    fn bind(&mut self, binding: usize) {
        self.bound.insert(binding);
        self.ever.insert(binding);
    }

    fn used(&mut self, binding: usize) {
        self.features.add(if self.bound.contains(&binding) {
            "use of a bound binding"
        } else if self.ever.contains(&binding) {
            "use of a binding out of scope"
        } else {
            "use of an unbound binding"
        });
        let unbound_call = !self.bound.contains(&binding) && self.iterator_call(binding).is_some();
        self.features
            .add_if(unbound_call, "iterator call not bound");
        self.features.add_if(
            self.by_pattern.contains(&binding),
            "use of a binding that a one-arm match binds",
        );
    }

    /// The feature of an iterator call that is bound.
    fn iterator_call(&self, binding: usize) -> Option<&'static str> {
        let external = |function| matches!(function, Function::External(_));
        match &self.bindings[binding] {
            Binding::Extractor { term, .. } if self.plan.terms[*term].multi => {
                Some(match external(self.plan.terms[*term].xtor) {
                    true => "iterator call by external extract bound",
                    false => "iterator call by internal extract bound",
                })
            }
            Binding::Constructor { term, .. } if self.plan.terms[*term].multi => {
                Some(match external(self.plan.terms[*term].ctor) {
                    true => "iterator call by external construct bound",
                    false => "iterator call by internal construct bound",
                })
            }
            _ => None,
        }
    }

    fn block(&mut self, block: &Block, level: usize) {
        let outer = self.bound.clone();
        let is_return = |step: &&Step| matches!(step.check, ControlFlow::Return { .. });
        let returns = block.iter().filter(is_return).count();
        self.features
            .add_if(returns > 1, "several returns in a block");
        for step in block {
            self.deepest = self.deepest.max(level);
            self.features.add_if(level == 63, "level 63");
            self.bind_order(&step.bind_order);
            self.step(step, level);
        }
        self.bound = outer;
    }

    fn bind_order(&mut self, order: &[usize]) {
        self.features
            .add_size("bindings in bind_order", order.len());
        self.features
            .add_if(order.len() == 32, "list of 32 in bind_order");
        for &binding in order {
            let again = self.bound.contains(&binding);
            self.features.add_if(again, "binding bound again");
            if let Some(feature) = self.iterator_call(binding) {
                self.features.add(feature);
                self.features.add_if(again, "iterator call bound again");
            }
            self.bind(binding);
        }
    }

    fn step(&mut self, step: &Step, level: usize) {
        match &step.check {
            ControlFlow::Match { source, arms } => self.matched(*source, arms, level),
            ControlFlow::Equal { a, b, body } => {
                self.features.add("step equal");
                self.features.add_if(body.is_empty(), "empty equal body");
                self.used(*a);
                self.used(*b);
                self.block(body, level + 1);
            }
            ControlFlow::Loop { result, body } => {
                self.features.add("step loop");
                self.features.add_if(body.is_empty(), "empty loop body");
                let Binding::Iterator { source } = self.bindings[*result] else {
                    return;
                };
                let bound = self.bound.contains(&source);
                self.features.add(if bound {
                    "loop over a bound source"
                } else {
                    "loop over an unbound source"
                });
                let outer = self.bound.clone();
                self.bind(*result);
                self.block(body, level + 1);
                self.bound = outer;
            }
            ControlFlow::Return { result, .. } => {
                self.features.add("step return");
                let is_marked = is_reference_call(self.plan, &self.bindings[*result]);
                self.features.add_if(is_marked, "return of a reference");
                self.used(*result);
            }
        }
    }

    fn matched(&mut self, source: usize, arms: &[Arm], level: usize) {
        self.features.add("step match");
        let is_marked = is_reference_call(self.plan, &self.bindings[source]);
        self.features.add_if(is_marked, "match on a reference");
        self.used(source);
        self.features.add(if arms.len() == 1 {
            "match with one arm"
        } else {
            "match with several arms"
        });
        let rows: Vec<String> = arms
            .iter()
            .map(|arm| constraint_words(arm.constraint))
            .collect();
        let kind = |row: &String| row.split(' ').next().map(str::to_string);
        let kinds: BTreeSet<_> = rows.iter().map(kind).collect();
        self.features
            .add_if(kinds.len() > 1, "match with arms of several kinds");
        let different: BTreeSet<_> = rows.iter().collect();
        self.features
            .add_if(different.len() < rows.len(), "match with equal arms");
        let outer = self.by_pattern.clone();
        if let [arm] = arms {
            self.by_pattern.extend(arm.bindings.iter().flatten());
        }
        for arm in arms {
            self.arm(source, arm, level + 1);
        }
        self.by_pattern = outer;
    }

    fn arm(&mut self, source: usize, arm: &Arm, level: usize) {
        if let Constraint::ConstInt { ty, .. } = arm.constraint {
            self.features.integer(self.plan, ty);
        }
        self.features.add(match arm.constraint {
            Constraint::ConstBool { .. } => "arm bool",
            Constraint::ConstInt { .. } => "arm int",
            Constraint::ConstPrim { .. } => "arm prim",
            Constraint::Variant { .. } => "arm variant",
            Constraint::Struct { .. } => "arm struct",
            Constraint::Some => "arm some",
        });
        self.deepest = self.deepest.max(level);
        self.features.add_if(level == 63, "level 63");
        self.features.add_if(arm.body.is_empty(), "empty arm body");
        let named: Vec<usize> = arm.bindings.iter().flatten().copied().collect();
        self.features
            .add_if(named.len() < arm.bindings.len(), "arm with _");
        self.features.add_if(
            named.is_empty() && !arm.bindings.is_empty(),
            "arm with _ alone",
        );
        self.features
            .add_if(arm.bindings.len() == 32, "list of 32 in an arm");
        self.features.add_if(
            named.contains(&source),
            "match on a binding that its own arm binds",
        );
        let is_some = matches!(arm.constraint, Constraint::Some);
        let is_marked = is_reference_call(self.plan, &self.bindings[source]);
        self.features
            .add_if(is_some && is_marked, "arm some on a reference");
        self.features
            .add_if(self.binds_reference(arm), "arm that binds a reference");
        let outer = self.bound.clone();
        named.into_iter().for_each(|binding| self.bind(binding));
        self.block(&arm.body, level + 1);
        self.bound = outer;
    }
}

impl Walk<'_> {
    /// Whether a field of enum or struct type is bound, by `ref`.
    fn binds_reference(&self, arm: &Arm) -> bool {
        let types = match arm.constraint {
            Constraint::Variant { ty, variant } => {
                self.plan.variants_of(ty)[variant].fields.types()
            }
            Constraint::Struct { ty } => self
                .plan
                .struct_fields(ty)
                .map_or(Vec::new(), Fields::types),
            _ => return false,
        };
        let by_ref = |(binding, ty): (&Option<usize>, usize)| {
            binding.is_some() && is_reference(self.plan, ty)
        };
        arm.bindings.iter().zip(types).any(by_ref)
    }
}

fn constraint_words(constraint: Constraint) -> String {
    match constraint {
        Constraint::ConstBool { val } => format!("bool {val}"),
        Constraint::ConstInt { ty, val } => format!("int {ty} {val}"),
        Constraint::ConstPrim { val } => format!("prim {val}"),
        Constraint::Variant { ty, variant } => format!("variant {ty} {variant}"),
        Constraint::Struct { ty } => format!("struct {ty}"),
        Constraint::Some => "some".to_string(),
    }
}

/// Goes through the arms of an iterator-kind term in a plan with split 1.
struct Closures<'a> {
    features: &'a mut Features,
    threshold: usize,
    opened: usize,
}

impl Closures<'_> {
    /// `around` closures are open.
    fn block(&mut self, block: &Block, around: usize) {
        for step in block {
            match &step.check {
                ControlFlow::Match { arms, .. } => {
                    arms.iter()
                        .for_each(|arm| self.arm(arm, arms.len(), around));
                }
                ControlFlow::Equal { body, .. } | ControlFlow::Loop { body, .. } => {
                    self.block(body, around);
                }
                ControlFlow::Return { .. } => {}
            }
        }
    }

    fn arm(&mut self, arm: &Arm, arms: usize, around: usize) {
        let weight = block_weight(&arm.body);
        let heavy = weight > self.threshold;
        if arms == 1 {
            self.features
                .add_if(heavy, "one-arm match above the threshold");
            return self.block(&arm.body, around);
        }
        self.features
            .add_if(weight + 1 == self.threshold, "arm of weight threshold - 1");
        self.features
            .add_if(weight == self.threshold, "arm of weight threshold");
        self.features
            .add_if(weight == self.threshold + 1, "arm of weight threshold + 1");
        if heavy {
            self.opened += 1;
            self.features.add("arm that splits");
            self.features.add_size("closures around a closure", around);
            self.features
                .add_if(around == 1, "arm that splits inside another");
            self.features
                .add_if(around > 1, "arm that splits inside two others");
        }
        self.block(&arm.body, around + heavy as usize);
    }
}
