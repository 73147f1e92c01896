//! Files, syms, positions, types, variants and terms of a plan that refusals 1 to 10 accept.

use crate::random::Random;
use crate::rows::{BUILTINS, Declared, Fields, Function, Plan, Term, Type, TypeKind, Variant};
use crate::texts::{self, Style};

/// How large a plan gets and what it is made of. A pair is a least and a most number; the other
/// numbers are percentages, except `fields` and `level`, which are most numbers.
#[derive(Clone, Copy)]
pub struct Sizes {
    pub files: (usize, usize),
    pub syms: (usize, usize),
    pub positions: (usize, usize),
    pub types: (usize, usize),
    pub variants: (usize, usize),
    pub terms: (usize, usize),
    pub generated: (usize, usize),
    /// Most values in a list of fields or arguments.
    pub fields: usize,
    pub style: Style,
    /// Plans without syms, and plans without positions.
    pub bare: usize,
    /// Terms that are multi.
    pub multi: usize,
    /// Plans with split 1.
    pub split: usize,
    /// Rows that a block is allowed.
    pub rows: (usize, usize),
    /// Deepest level.
    pub level: usize,
    /// Bindings of a block that is not scheduled.
    pub bindings: (usize, usize),
    /// Blocks that are not scheduled: any binding anywhere.
    pub wild: usize,
    /// References in scheduled blocks that are replaced by others.
    pub replaced: usize,
    /// Bindings and arms that hold integers.
    pub integers: usize,
    /// Expressions are kept below this estimated length.
    pub expression: usize,
}

fn between(random: &mut Random, (low, high): (usize, usize)) -> usize {
    random.range(low, high)
}

pub struct Environment<'a> {
    random: &'a mut Random,
    sizes: &'a Sizes,
    plan: Plan,
    next_sym: usize,
    /// Types that most fields, arguments and results have, so that expressions fit together.
    common: Vec<usize>,
}

/// A plan without generated terms.
pub fn environment(random: &mut Random, sizes: &Sizes) -> Plan {
    let mut builder = Environment {
        random,
        sizes,
        plan: Plan::empty(),
        next_sym: 0,
        common: Vec::new(),
    };
    builder.options();
    builder.texts();
    builder.types();
    builder.variants();
    builder.terms();
    builder.plan
}

impl Environment<'_> {
    fn options(&mut self) {
        let random = &mut *self.random;
        let options = &mut self.plan.options;
        options.nopragmas = random.chance(50);
        options.log = random.chance(50);
        options.split = random.chance(self.sizes.split);
        options.threshold = threshold(random);
    }

    fn texts(&mut self) {
        let Sizes {
            files,
            syms,
            positions,
            style,
            ..
        } = *self.sizes;
        let random = &mut *self.random;
        let plan = &mut self.plan;
        plan.files = (0..between(random, files))
            .map(|_| texts::file(random, style))
            .collect();
        // Without syms there are no types and terms, without positions only primitive types.
        let syms = if random.chance(self.sizes.bare) {
            0
        } else {
            between(random, syms)
        };
        plan.syms = (0..syms).map(|_| texts::sym(random, style)).collect();
        let bare = random.chance(self.sizes.bare);
        let count = if bare { 0 } else { between(random, positions) };
        plan.positions = (0..count).map(|_| texts::pos(random, style)).collect();
    }

    /// Mostly a sym that was not given out yet, so that names differ; else any.
    fn sym(&mut self) -> usize {
        if self.random.chance(35) {
            return self.random.below(self.plan.syms.len());
        }
        self.next_sym += 1;
        self.next_sym % self.plan.syms.len()
    }

    /// A type number below `count`, mostly a common one.
    fn ty(&mut self, count: usize) -> usize {
        if self.random.chance(75) {
            *self.random.pick(&self.common)
        } else {
            self.random.below(count)
        }
    }

    fn types(&mut self) {
        let rows = between(self.random, self.sizes.types);
        let rows = if self.plan.syms.is_empty() { 0 } else { rows };
        let count = BUILTINS + rows;
        let first = if rows > 0 { BUILTINS } else { 0 };
        self.common = vec![self.random.below(BUILTINS)];
        for _ in 0..self.random.range(2, 5) {
            self.common.push(self.random.range(first, count - 1));
        }
        for _ in 0..rows {
            let name = self.sym();
            let kind = self.type_kind(count);
            self.plan.types.push(Type { name, kind });
        }
    }

    fn type_kind(&mut self, count: usize) -> TypeKind {
        let kind = self.random.weighted(&[15, 40, 10, 18, 17]);
        if kind == 0 || self.plan.positions.is_empty() {
            return TypeKind::Primitive;
        }
        let declared = Declared {
            is_extern: self.random.chance(30),
            is_nodebug: self.random.chance(30),
            pos: self.random.below(self.plan.positions.len()),
        };
        match kind {
            1 => TypeKind::Enum(declared),
            2 => TypeKind::Struct(declared, Fields::Unit),
            3 => TypeKind::Struct(declared, self.named(count)),
            _ => TypeKind::Struct(declared, self.tuple(count)),
        }
    }

    fn field_count(&mut self) -> usize {
        match self.random.below(20) {
            0 => 0,
            1 => self.random.range(0, self.sizes.fields),
            _ => self.random.range(1, self.sizes.fields.min(3)),
        }
    }

    fn named(&mut self, count: usize) -> Fields {
        let fields = (0..self.field_count())
            .map(|_| (self.sym(), self.ty(count)))
            .collect();
        Fields::Struct(fields)
    }

    fn tuple(&mut self, count: usize) -> Fields {
        Fields::Tuple((0..self.field_count()).map(|_| self.ty(count)).collect())
    }

    fn variants(&mut self) {
        let enums: Vec<usize> = (BUILTINS..self.plan.type_count())
            .filter(|&ty| self.plan.is_enum(ty))
            .collect();
        if enums.is_empty() {
            return;
        }
        let mut ty = enums[0];
        for _ in 0..between(self.random, self.sizes.variants) {
            // Mostly another variant of the same enum, else of any enum: then they interleave.
            if self.random.chance(40) {
                ty = *self.random.pick(&enums);
            }
            let variant = self.variant(ty);
            self.plan.variants.push(variant);
        }
    }

    fn variant(&mut self, ty: usize) -> Variant {
        let count = self.plan.type_count();
        let name = self.sym();
        let fields = match self.random.below(3) {
            0 => Fields::Unit,
            1 => self.named(count),
            _ => self.tuple(count),
        };
        Variant { ty, name, fields }
    }

    fn terms(&mut self) {
        if self.plan.syms.is_empty() || self.plan.positions.is_empty() {
            return;
        }
        for _ in 0..between(self.random, self.sizes.terms) {
            let term = self.term();
            self.plan.terms.push(term);
        }
    }

    fn term(&mut self) -> Term {
        let count = self.plan.type_count();
        Term {
            name: self.sym(),
            pos: self.random.below(self.plan.positions.len()),
            ret: self.ty(count),
            multi: self.random.chance(self.sizes.multi),
            partial: self.random.chance(35),
            ctor: self.function(20),
            xtor: self.function(30),
            infallible: self.random.chance(40),
            args: (0..self.argument_count()).map(|_| self.ty(count)).collect(),
        }
    }

    fn argument_count(&mut self) -> usize {
        match self.random.below(12) {
            0 => 0,
            1 => self.random.range(0, self.sizes.fields),
            n if n < 8 => 1,
            _ => self.random.range(2, 3),
        }
    }

    fn function(&mut self, absent: usize) -> Function {
        if self.random.chance(absent) {
            Function::Absent
        } else if self.random.chance(35) {
            Function::Internal
        } else {
            Function::External(self.sym())
        }
    }
}

pub fn threshold(random: &mut Random) -> Option<usize> {
    match random.below(6) {
        0 => None,
        1 => Some(*random.pick(&[255, 256, 257, 65535])),
        2 => Some(0),
        _ => Some(random.range(1, 9)),
    }
}
