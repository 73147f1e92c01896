//! Blocks of a generated term: scheduled ones, where steps bind what they use as `serialize` would
//! have it, and wild ones, where any binding stands anywhere.

use crate::bindings::{Bindings, Sort, sources};
use crate::environment::Sizes;
use crate::random::Random;
use crate::rows::{
    Arm, Binding, Block, Constraint, ControlFlow, Fields, Function, Generated, Plan, Step,
};
use crate::texts;

/// A block for term `term` of the plan, with its bindings.
pub fn generated(random: &mut Random, plan: &Plan, sizes: &Sizes, term: usize) -> Generated {
    let rows = random.range(sizes.rows.0, sizes.rows.1);
    let wild = random.chance(sizes.wild);
    let replaced = if random.chance(50) { sizes.replaced } else { 0 };
    let bindings = Bindings::new(random, plan, sizes, &plan.terms[term]);
    let mut blocks = Blocks { bindings, rows };
    let mut block = if wild {
        blocks.wild_root()
    } else {
        blocks.scheduled_root()
    };
    if replaced > 0 {
        replace_in_block(&mut blocks.bindings, &mut block, replaced);
    }
    Generated {
        term,
        bindings: blocks.bindings.rows,
        block,
    }
}

pub struct Blocks<'a> {
    pub bindings: Bindings<'a>,
    /// Rows that the block may still take.
    pub rows: usize,
}

impl Blocks<'_> {
    fn random(&mut self) -> &mut Random {
        self.bindings.random
    }

    fn chance(&mut self, percent: usize) -> bool {
        self.bindings.random.chance(percent)
    }

    fn is_iterator(&self) -> bool {
        self.bindings.term.multi
    }

    fn pos(&mut self) -> usize {
        let count = self.bindings.plan.positions.len();
        self.random().below(count)
    }

    /// Takes a row off those left, if any are.
    fn take_row(&mut self) -> bool {
        let left = self.rows > 0;
        self.rows -= left as usize;
        left
    }

    // Scheduled blocks.

    pub fn scheduled_root(&mut self) -> Block {
        let scope = self.bindings.add_arguments();
        let mut block = self.scheduled(scope, 0);
        if self.chance(10) {
            block.clear();
        }
        if self.chance(20) {
            for _ in 0..self.random().range(1, 3) {
                self.bindings.add_wild();
            }
        }
        block
    }

    fn scheduled(&mut self, mut scope: Vec<usize>, level: usize) -> Block {
        let mut block = Vec::new();
        // The row of the last return is taken first, lest the steps before it take all.
        let ends = self.chance(if level == 0 { 50 } else { 75 }) && self.take_row();
        let most = if level == 0 { 5 } else { 3 };
        for _ in 0..self.random().range(if level == 0 { 1 } else { 0 }, most) {
            if let Some(step) = self.scheduled_step(&mut scope, level) {
                block.push(step);
            }
            if self.is_iterator() && self.chance(15) && self.take_row() {
                block.push(self.scheduled_return(&mut scope));
            }
        }
        if ends {
            block.push(self.scheduled_return(&mut scope));
        }
        block
    }

    fn scheduled_step(&mut self, scope: &mut Vec<usize>, level: usize) -> Option<Step> {
        let has_room = level + 2 <= self.bindings.sizes.level && self.bindings.has_room();
        if !has_room || scope.is_empty() || self.rows < 2 {
            return None;
        }
        match self.random().below(8) {
            0..=2 => {
                let source = *self.bindings.random.pick(scope);
                let bind_order = self.destructured(scope).into_iter().collect();
                self.match_value(source, bind_order, scope, level)
            }
            3 => self.equal(scope, level),
            4 | 5 if self.is_iterator() => self.scheduled_loop(scope, level),
            _ => self.match_call(scope, level),
        }
    }

    /// Of the bindings made for a step, those that it binds; they stay in scope.
    fn bind_order(&mut self, scope: &mut Vec<usize>, first: usize) -> Vec<usize> {
        let mut order = Vec::new();
        for binding in first..self.bindings.rows.len() {
            let by_pattern = matches!(
                self.bindings.rows[binding],
                Binding::MatchVariant { .. }
                    | Binding::ExtractStruct { .. }
                    | Binding::MatchSome { .. }
                    | Binding::MatchTuple { .. }
                    | Binding::Iterator { .. }
            );
            if !by_pattern && order.len() < 31 && self.chance(35) {
                order.push(binding);
                scope.push(binding);
            }
        }
        order
    }

    fn scheduled_return(&mut self, scope: &mut Vec<usize>) -> Step {
        let first = self.bindings.rows.len();
        let ret = self.bindings.term.ret;
        let inner = self.bindings.value(ret, scope, 3);
        let term = self.bindings.term;
        let result = if term.partial && !term.multi {
            let sort = Sort::Option(Box::new(Sort::Value(ret)));
            self.bindings.add(Binding::MakeSome { inner }, sort)
        } else {
            inner
        };
        let pos = self.pos();
        let mut bind_order = self.bind_order(scope, first);
        bind_order.extend(self.destructured(scope));
        Step {
            bind_order,
            check: ControlFlow::Return { result, pos },
        }
    }

    /// A field of a tuple in scope is now and then bound before it is used.
    fn destructured(&mut self, scope: &[usize]) -> Option<usize> {
        let binding = *self.bindings.random.pick(if scope.is_empty() {
            &[usize::MAX]
        } else {
            scope
        });
        let is_field = matches!(
            self.bindings.rows.get(binding),
            Some(Binding::MatchTuple { .. })
        );
        (is_field && self.chance(50)).then_some(binding)
    }

    fn equal(&mut self, scope: &mut Vec<usize>, level: usize) -> Option<Step> {
        self.take_row();
        let first = self.bindings.rows.len();
        let a = *self.bindings.random.pick(scope);
        let b = match self.bindings.sorts[a] {
            Sort::Value(ty) => self.bindings.value(ty, scope, 2),
            _ => *self.bindings.random.pick(scope),
        };
        let bind_order = self.bind_order(scope, first);
        let body = self.scheduled(scope.clone(), level + 1);
        let check = ControlFlow::Equal { a, b, body };
        Some(Step { bind_order, check })
    }

    /// None if the source's type is not known.
    fn match_value(
        &mut self,
        source: usize,
        bind_order: Vec<usize>,
        scope: &[usize],
        level: usize,
    ) -> Option<Step> {
        let Sort::Value(ty) = self.bindings.sorts[source] else {
            return None;
        };
        self.take_row();
        let most = if self.chance(40) { 1 } else { 4 };
        let count = self.random().range(1, most);
        let mut arms = Vec::new();
        for _ in 0..count {
            if !arms.is_empty() && (self.rows == 0 || !self.bindings.has_room()) {
                break;
            }
            let constraint = self.constraint(ty);
            arms.push(self.scheduled_arm(source, constraint, scope, level + 1));
        }
        let check = ControlFlow::Match { source, arms };
        Some(Step { bind_order, check })
    }

    /// A constraint on a value of type `ty`.
    fn constraint(&mut self, ty: usize) -> Constraint {
        let plan = self.bindings.plan;
        if plan.struct_fields(ty).is_some() && self.chance(90) {
            return Constraint::Struct { ty };
        }
        let variants = plan.variants_of(ty).len();
        if variants > 0 && self.chance(90) {
            return Constraint::Variant {
                ty,
                variant: self.random().below(variants),
            };
        }
        self.constant(ty)
    }

    fn constant(&mut self, ty: usize) -> Constraint {
        let syms = self.bindings.plan.syms.len();
        if ty == 0 && self.chance(80) {
            Constraint::ConstBool {
                val: self.chance(50),
            }
        } else if ty < crate::rows::BUILTINS || self.chance(30) {
            Constraint::ConstInt {
                ty,
                val: texts::value(self.random()),
            }
        } else {
            Constraint::ConstPrim {
                val: self.random().below(syms),
            }
        }
    }

    fn scheduled_arm(
        &mut self,
        source: usize,
        constraint: Constraint,
        scope: &[usize],
        level: usize,
    ) -> Arm {
        self.take_row();
        let mut inner = scope.to_vec();
        let bindings = self.pattern(source, constraint, &mut inner);
        let body = if level < self.bindings.sizes.level {
            self.scheduled(inner, level + 1)
        } else {
            Vec::new()
        };
        Arm {
            constraint,
            bindings,
            body,
        }
    }

    /// The bindings of an arm's pattern, put into its scope.
    fn pattern(
        &mut self,
        source: usize,
        constraint: Constraint,
        scope: &mut Vec<usize>,
    ) -> Vec<Option<usize>> {
        let plan = self.bindings.plan;
        let fields = match constraint {
            Constraint::Variant { ty, variant } => plan.variants_of(ty)[variant].fields.clone(),
            Constraint::Struct { ty } => plan.struct_fields(ty).cloned().unwrap_or(Fields::Unit),
            Constraint::Some => return vec![self.some_pattern(source, scope)],
            _ => Fields::Unit,
        };
        let is_struct = matches!(constraint, Constraint::Struct { .. });
        let skip = *self.bindings.random.pick(&[0, 20, 50, 100]);
        let mut bindings = Vec::new();
        for (field, ty) in fields.types().into_iter().enumerate() {
            if self.chance(skip) || !self.bindings.has_room() {
                bindings.push(None);
                continue;
            }
            let binding = if is_struct {
                Binding::ExtractStruct { source, field }
            } else {
                Binding::MatchVariant { source, field }
            };
            let binding = self.bindings.add(binding, Sort::Value(ty));
            scope.push(binding);
            bindings.push(Some(binding));
        }
        bindings
    }

    fn some_pattern(&mut self, source: usize, scope: &mut Vec<usize>) -> Option<usize> {
        if self.chance(15) || !self.bindings.has_room() {
            return None;
        }
        let inner = match &self.bindings.sorts[source] {
            Sort::Option(inner) => (**inner).clone(),
            _ => Sort::Unknown,
        };
        let binding = self.bindings.add(Binding::MatchSome { source }, inner);
        self.enter(binding, scope);
        Some(binding)
    }

    /// Puts a value, or the fields of a tuple, into scope.
    fn enter(&mut self, binding: usize, scope: &mut Vec<usize>) {
        scope.push(binding);
        let Sort::Tuple(types) = self.bindings.sorts[binding].clone() else {
            return;
        };
        for (field, ty) in types.into_iter().enumerate().take(6) {
            if self.bindings.has_room() {
                let tuple = Binding::MatchTuple {
                    source: binding,
                    field,
                };
                scope.push(self.bindings.add(tuple, Sort::Value(ty)));
            }
        }
    }

    /// A call of an extractor on a value in scope, or of a constructor.
    fn call(&mut self, scope: &[usize], multi: bool) -> Option<usize> {
        let parameter = *self.bindings.random.pick(scope);
        let sort = self.bindings.sorts[parameter].clone();
        let matches = |ret: usize| sort == Sort::Value(ret);
        let extractors = self.bindings.terms(|term| {
            term.xtor != Function::Absent && term.multi == multi && matches(term.ret)
        });
        let constructors = self.bindings.terms(|term| {
            term.ctor != Function::Absent && term.multi == multi && term.args.len() <= 4
        });
        if !extractors.is_empty() && self.chance(60) {
            let term = *self.bindings.random.pick(&extractors);
            return Some(self.bindings.extract(term, parameter));
        }
        if constructors.is_empty() {
            return None;
        }
        let term = *self.bindings.random.pick(&constructors);
        Some(self.bindings.construct(term, scope, 2))
    }

    /// A match on what a call gives: `Some`, a tuple's field, or the value.
    fn match_call(&mut self, scope: &mut Vec<usize>, level: usize) -> Option<Step> {
        let first = self.bindings.rows.len();
        let call = self.call(scope, false)?;
        let bind_order = self.bind_order(scope, first);
        let mut inner = scope.clone();
        if !matches!(self.bindings.sorts[call], Sort::Option(_)) {
            self.enter(call, &mut inner);
            let source = inner[inner.len() - 1];
            return self.match_value(source, bind_order, &inner, level);
        }
        self.take_row();
        let count = if self.chance(80) { 1 } else { 2 };
        let arms = (0..count)
            .map(|_| self.scheduled_arm(call, Constraint::Some, &inner, level + 1))
            .collect();
        let check = ControlFlow::Match { source: call, arms };
        Some(Step { bind_order, check })
    }

    fn scheduled_loop(&mut self, scope: &mut Vec<usize>, level: usize) -> Option<Step> {
        let first = self.bindings.rows.len();
        let source = self.call(scope, true)?;
        self.take_row();
        let mut bind_order = self.bind_order(scope, first);
        if !bind_order.contains(&source) && self.chance(90) {
            bind_order.push(source);
        }
        let inner = match &self.bindings.sorts[source] {
            Sort::Iterator(inner) => (**inner).clone(),
            _ => Sort::Unknown,
        };
        let result = self.bindings.add(Binding::Iterator { source }, inner);
        let mut inside = scope.clone();
        self.enter(result, &mut inside);
        let body = self.scheduled(inside, level + 1);
        let check = ControlFlow::Loop { result, body };
        Some(Step { bind_order, check })
    }

    // Wild blocks.

    fn wild_root(&mut self) -> Block {
        let (low, high) = self.bindings.sizes.bindings;
        for _ in 0..self.random().range(low, high) {
            self.bindings.add_wild();
        }
        if self.bindings.rows.is_empty() {
            Vec::new()
        } else {
            self.wild(0)
        }
    }

    pub fn wild(&mut self, level: usize) -> Block {
        let mut block = Vec::new();
        let ends = self.chance(if self.is_iterator() { 30 } else { 60 }) && self.take_row();
        for _ in 0..self.random().range(if level == 0 { 1 } else { 0 }, 4) {
            if !self.take_row() {
                break;
            }
            block.push(self.wild_step(level));
        }
        if ends {
            block.push(self.wild_return());
        }
        block
    }

    /// Steps at level 0 until no row is left.
    pub fn wild_rows(&mut self) -> Block {
        let mut block = Vec::new();
        while self.take_row() {
            block.push(self.wild_step(0));
        }
        block
    }

    fn any(&mut self) -> usize {
        self.bindings.source()
    }

    pub fn wild_order(&mut self) -> Vec<usize> {
        let count = match self.random().below(10) {
            0..=4 => 0,
            9 => self.random().range(1, 6),
            _ => 1,
        };
        self.bindings.sources(count)
    }

    fn wild_return(&mut self) -> Step {
        let check = ControlFlow::Return {
            result: self.any(),
            pos: self.pos(),
        };
        Step {
            bind_order: self.wild_order(),
            check,
        }
    }

    fn wild_step(&mut self, level: usize) -> Step {
        let bind_order = self.wild_order();
        let iterators: Vec<usize> = (0..self.bindings.rows.len())
            .filter(|&b| matches!(self.bindings.rows[b], Binding::Iterator { .. }))
            .collect();
        let room = level + 2 <= self.bindings.sizes.level;
        let check = match self.random().below(10) {
            0..=3 if room && self.rows > 0 => self.wild_match(level),
            4 | 5 if self.is_iterator() && !iterators.is_empty() => {
                let result = *self.bindings.random.pick(&iterators);
                ControlFlow::Loop {
                    result,
                    body: self.wild_body(level),
                }
            }
            6..=8 if self.is_iterator() => return self.wild_return(),
            _ => ControlFlow::Equal {
                a: self.any(),
                b: self.any(),
                body: self.wild_body(level),
            },
        };
        Step { bind_order, check }
    }

    fn wild_body(&mut self, level: usize) -> Block {
        if level < self.bindings.sizes.level {
            self.wild(level + 1)
        } else {
            Vec::new()
        }
    }

    fn wild_match(&mut self, level: usize) -> ControlFlow {
        let source = self.any();
        let count = if self.chance(40) {
            1
        } else {
            self.random().range(2, 4)
        };
        let mut arms: Vec<Arm> = Vec::new();
        for _ in 0..count {
            if !self.take_row() {
                break;
            }
            let constraint = match arms.last() {
                Some(arm) if self.chance(15) => arm.constraint,
                _ => self.wild_constraint(),
            };
            arms.push(self.wild_arm(constraint, level + 1));
        }
        ControlFlow::Match { source, arms }
    }

    fn wild_arm(&mut self, constraint: Constraint, level: usize) -> Arm {
        let skip = *self.bindings.random.pick(&[0, 30, 100]);
        let bindings = (0..self.bindings.arm_length(constraint))
            .map(|_| {
                if self.chance(skip) {
                    None
                } else {
                    Some(self.any())
                }
            })
            .collect();
        Arm {
            constraint,
            bindings,
            body: self.wild_body(level),
        }
    }

    pub fn wild_constraint(&mut self) -> Constraint {
        let plan = self.bindings.plan;
        if self.chance(self.bindings.sizes.integers) {
            let ty = self.random().below(plan.type_count());
            return Constraint::ConstInt {
                ty,
                val: texts::value(self.random()),
            };
        }
        let drawn = match self.random().below(7) {
            0 => Some(Constraint::ConstBool {
                val: self.chance(50),
            }),
            1 => {
                let ty = self.random().below(plan.type_count());
                Some(Constraint::ConstInt {
                    ty,
                    val: texts::value(self.random()),
                })
            }
            2 => Some(Constraint::ConstPrim {
                val: self.random().below(plan.syms.len()),
            }),
            3 | 4 => self.bindings.any_variant(),
            5 => self.bindings.any_struct(),
            _ => None,
        };
        drawn.unwrap_or(Constraint::Some)
    }
}

/// Replaces `percent` of the references of a block by any bindings.
fn replace_in_block(bindings: &mut Bindings, block: &mut Block, percent: usize) {
    if bindings.rows.is_empty() {
        return;
    }
    for step in block {
        for binding in &mut step.bind_order {
            replace(bindings, binding, percent);
        }
        if step.bind_order.len() < 32 && bindings.random.chance(percent) {
            let extra = bindings.source();
            step.bind_order.push(extra);
        }
        match &mut step.check {
            ControlFlow::Match { source, arms } => {
                replace(bindings, source, percent);
                for arm in arms {
                    arm.bindings
                        .iter_mut()
                        .flatten()
                        .for_each(|b| replace(bindings, b, percent));
                    replace_in_block(bindings, &mut arm.body, percent);
                }
            }
            ControlFlow::Equal { a, b, body } => {
                replace(bindings, a, percent);
                replace(bindings, b, percent);
                replace_in_block(bindings, body, percent);
            }
            ControlFlow::Loop { body, .. } => replace_in_block(bindings, body, percent),
            ControlFlow::Return { result, .. } => replace(bindings, result, percent),
        }
    }
}

fn replace(bindings: &mut Bindings, reference: &mut usize, percent: usize) {
    if bindings.random.chance(percent) {
        // A neighbour in the sources' order, or any binding.
        let near = sources(&bindings.rows[*reference]);
        *reference = match near[..] {
            [source, ..] if bindings.random.chance(50) => source,
            _ => bindings.source(),
        };
    }
}
