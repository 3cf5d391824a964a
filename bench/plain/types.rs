//! Which policies are well typed.

use crate::tokens::{self, read_tokens};
use crate::trees::{
    Arm, Bind, Else, Expr, ExprBlock, Field, FinishStmt, Item, Literal, Otherwise, Pattern, Section,
    Stmt, Type, items,
};
use std::collections::{HashMap, HashSet};
use std::fs;
use std::process::ExitCode;

#[derive(Clone, Copy, PartialEq)]
enum Block {
    Command,
    Function,
    Action,
    Finish,
}

/// Where a statement stands.
#[derive(Clone, Copy)]
struct Place<'t, 'a> {
    block: Block,
    this: Option<&'a str>,
    result: Option<&'t Type<'a>>,
}

/// The names in scope, and in which order they came.
#[derive(Default)]
struct Scope<'a> {
    types: HashMap<&'a str, Type<'a>>,
    names: Vec<&'a str>,
}

impl Scope<'_> {
    fn shrink(&mut self, size: usize) {
        for name in self.names.drain(size..) {
            self.types.remove(name);
        }
    }
}

/// What a called name is: a function, or a finish function.
type Callee<'a> = (bool, &'a str);

struct Policy<'t, 'a> {
    items: HashMap<&'a str, &'t Item<'a>>,
    lets: HashSet<&'a str>,
    variants: HashMap<&'a str, HashSet<&'a str>>,
    /// How many calls the longest chain has that begins with a call of it, and how deep structs nest in it; a great number where there is no end.
    chains: HashMap<Callee<'a>, usize>,
    depths: HashMap<&'a str, usize>,
}

const ENDLESS: usize = usize::MAX / 2;

fn name<'a>(item: &Item<'a>) -> Option<&'a str> {
    match item {
        Item::Use => None,
        Item::Let(name, _)
        | Item::Enum(name, _)
        | Item::Struct(name, _, _)
        | Item::Fact(_, name, _, _)
        | Item::Command(name, _)
        | Item::Function(name, _, _, _)
        | Item::FinishFunction(name, _, _)
        | Item::Action(name, _, _) => Some(name),
    }
}

fn fits(one: &Type, other: &Type) -> bool {
    match (one, other) {
        (Type::Never, _) => true,
        (Type::Optional(one), Type::Optional(other)) => fits(one, other),
        _ => one == other,
    }
}

fn joined<'a>(one: Type<'a>, other: Type<'a>) -> Option<Type<'a>> {
    if fits(&one, &other) {
        Some(other)
    } else {
        fits(&other, &one).then_some(one)
    }
}

fn are_distinct<T: std::hash::Hash + Eq>(mut names: impl Iterator<Item = T>) -> bool {
    let mut seen = HashSet::new();
    names.all(|name| seen.insert(name))
}

fn find<'f, 'a>(fields: &'f [Field<'a>], name: &str) -> Option<&'f Type<'a>> {
    fields.iter().find(|field| field.name == name).map(|field| &field.of)
}

/// The calls of an item.
#[derive(Default)]
struct Calls<'a>(Vec<Callee<'a>>);

impl<'a> Calls<'a> {
    fn exprs<'t>(&mut self, exprs: impl IntoIterator<Item = &'t Expr<'a>>)
    where
        'a: 't,
    {
        for expr in exprs {
            self.expr(expr);
        }
    }

    fn binds(&mut self, binds: &[Bind<'a>]) {
        self.exprs(binds.iter().map(|bind| &bind.value));
    }

    fn pattern(&mut self, pattern: &Pattern<'a>) {
        let parts = pattern.keys.iter().chain(&pattern.values);
        self.exprs(parts.filter_map(|part| part.1.as_ref()));
    }

    fn block(&mut self, block: &ExprBlock<'a>) {
        self.binds(&block.lets);
        self.expr(&block.value);
    }

    fn expr(&mut self, expr: &Expr<'a>) {
        match expr {
            Expr::Logic(a, b) | Expr::Equal(a, b) | Expr::Order(a, b) | Expr::Arithmetic(_, a, b) => {
                self.expr(a);
                self.expr(b);
            }
            Expr::Is(a) | Expr::Not(a) | Expr::Unwrap(a) | Expr::Field(a, _) | Expr::Some(a) => self.expr(a),
            Expr::Literal(_) | Expr::None | Expr::This | Expr::Name(_) => {}
            Expr::ForeignCall(_, _, arguments) => self.exprs(arguments),
            Expr::Call(name, arguments) => {
                self.0.push((true, name));
                self.exprs(arguments);
            }
            Expr::Struct(_, binds) => self.binds(binds),
            Expr::Query(pattern) | Expr::Exists(pattern) | Expr::Count(_, _, pattern) => self.pattern(pattern),
            Expr::If(head, then, otherwise) => {
                self.expr(head);
                self.block(then);
                match &**otherwise {
                    Otherwise::Block(block) => self.block(block),
                    Otherwise::If(expr) => self.expr(expr),
                }
            }
        }
    }

    fn stmts(&mut self, stmts: &[Stmt<'a>]) {
        for stmt in stmts {
            self.stmt(stmt);
        }
    }

    fn stmt(&mut self, stmt: &Stmt<'a>) {
        match stmt {
            Stmt::Let(Bind { value, .. }) | Stmt::Check(value) | Stmt::Publish(value) | Stmt::Return(value) => self.expr(value),
            Stmt::If(head, then, otherwise) => {
                self.expr(head);
                self.stmts(then);
                match otherwise {
                    None => {}
                    Some(Else::Block(stmts)) => self.stmts(stmts),
                    Some(Else::If(stmt)) => self.stmt(stmt),
                }
            }
            Stmt::Match(head, arms) => {
                self.expr(head);
                for arm in arms {
                    self.stmts(&arm.body);
                }
            }
            Stmt::Finish(stmts) => self.finish(stmts),
            Stmt::Map(pattern, _, stmts) => {
                self.pattern(pattern);
                self.stmts(stmts);
            }
        }
    }

    fn finish(&mut self, stmts: &[FinishStmt<'a>]) {
        for stmt in stmts {
            match stmt {
                FinishStmt::Create(_, keys, values) => {
                    self.binds(keys);
                    self.binds(values);
                }
                FinishStmt::Update(pattern, to) => {
                    self.pattern(pattern);
                    self.binds(to);
                }
                FinishStmt::Delete(_, keys) => self.binds(keys),
                FinishStmt::Emit(expr) => self.expr(expr),
                FinishStmt::Call(name, arguments) => {
                    self.0.push((false, name));
                    self.exprs(arguments);
                }
            }
        }
    }

    fn of_item(item: &Item<'a>) -> Vec<Callee<'a>> {
        let mut calls = Calls::default();
        match item {
            Item::Command(_, sections) => {
                for section in sections {
                    if let Section::Policy(stmts) | Section::Recall(stmts) = section {
                        calls.stmts(stmts);
                    }
                }
            }
            Item::Function(_, _, _, stmts) | Item::Action(_, _, stmts) => calls.stmts(stmts),
            Item::FinishFunction(_, _, stmts) => calls.finish(stmts),
            _ => {}
        }
        calls.0
    }
}

fn is_plain(expr: &Expr) -> bool {
    match expr {
        Expr::Literal(_) | Expr::Name(_) | Expr::This | Expr::None => true,
        Expr::Field(inner, _) | Expr::Some(inner) => is_plain(inner),
        Expr::Struct(_, binds) => binds.iter().all(|bind| is_plain(&bind.value)),
        _ => false,
    }
}

fn returns(stmts: &[Stmt]) -> bool {
    fn one(stmt: &Stmt) -> bool {
        match stmt {
            Stmt::Return(_) => true,
            Stmt::If(_, then, Some(Else::Block(otherwise))) => returns(then) && returns(otherwise),
            Stmt::If(_, then, Some(Else::If(otherwise))) => returns(then) && one(otherwise),
            Stmt::Match(_, arms) => arms.iter().all(|arm| returns(&arm.body)),
            _ => false,
        }
    }
    stmts.last().is_some_and(one)
}

impl<'t, 'a> Policy<'t, 'a> {
    fn new(all: &'t [(usize, Item<'a>)]) -> Self {
        let mut policy = Policy {
            items: HashMap::new(),
            lets: HashSet::new(),
            variants: HashMap::new(),
            chains: HashMap::new(),
            depths: HashMap::new(),
        };
        for (_, item) in all {
            if let Some(name) = name(item) {
                policy.items.entry(name).or_insert(item);
            }
            if let Item::Let(name, _) = item {
                policy.lets.insert(name);
            }
        }
        for (name, item) in &policy.items {
            if let Item::Enum(_, variants) = item {
                policy.variants.insert(name, variants.iter().copied().collect());
            }
        }
        policy
    }

    fn struct_fields(&self, name: &str) -> Option<Vec<&'t Field<'a>>> {
        Some(match self.items.get(name)? {
            Item::Struct(_, fields, _) => fields.iter().collect(),
            Item::Fact(_, _, keys, values) => keys.iter().chain(values).collect(),
            Item::Command(_, sections) => sections
                .iter()
                .find_map(|section| match section {
                    Section::Fields(fields) => Some(fields.iter().collect()),
                    _ => None,
                })
                .unwrap_or_default(),
            _ => return None,
        })
    }

    fn exists(&self, of: &Type) -> bool {
        match of {
            Type::Enum(name) => self.variants.contains_key(name),
            Type::Struct(name) => self.struct_fields(name).is_some(),
            Type::Optional(inner) => self.exists(inner),
            _ => true,
        }
    }

    fn literal(&self, literal: &Literal<'a>) -> Option<Type<'a>> {
        Some(match literal {
            Literal::Number(_) => Type::Int,
            Literal::Text(_) => Type::Text,
            Literal::True | Literal::False => Type::Bool,
            Literal::Variant(name, variant) => {
                self.variants.get(name)?.contains(variant).then_some(Type::Enum(name))?
            }
        })
    }

    fn introduce(&self, place: Place<'_, 'a>, scope: &mut Scope<'a>, name: &'a str, of: Type<'a>) -> Option<()> {
        let is_kept = place.this.is_some() && name == "envelope";
        if is_kept || self.lets.contains(name) || scope.types.contains_key(name) {
            return None;
        }
        scope.types.insert(name, of);
        scope.names.push(name);
        Some(())
    }

    fn is(&self, place: Place<'_, 'a>, scope: &mut Scope<'a>, expr: &Expr<'a>, of: Type<'a>) -> Option<()> {
        (self.expr(place, scope, expr)? == of).then_some(())
    }

    fn optional(&self, place: Place<'_, 'a>, scope: &mut Scope<'a>, expr: &Expr<'a>) -> Option<Type<'a>> {
        match self.expr(place, scope, expr)? {
            Type::Optional(inner) => Some(*inner),
            _ => None,
        }
    }

    fn arguments(&self, place: Place<'_, 'a>, scope: &mut Scope<'a>, arguments: &[Expr<'a>], parameters: &[Field<'a>]) -> Option<()> {
        if arguments.len() != parameters.len() {
            return None;
        }
        for (argument, parameter) in arguments.iter().zip(parameters) {
            self.fitting(place, scope, argument, Some(&parameter.of))?;
        }
        Some(())
    }

    fn fitting(&self, place: Place<'_, 'a>, scope: &mut Scope<'a>, expr: &Expr<'a>, of: Option<&Type<'a>>) -> Option<()> {
        fits(&self.expr(place, scope, expr)?, of?).then_some(())
    }

    fn pattern(&self, place: Place<'_, 'a>, scope: &mut Scope<'a>, pattern: &Pattern<'a>) -> Option<()> {
        let Item::Fact(_, _, keys, values) = self.items.get(pattern.fact)? else {
            return None;
        };
        if pattern.keys.len() > keys.len() || !are_distinct(pattern.values.iter().map(|part| part.0)) {
            return None;
        }
        let mut is_gap = false;
        for ((name, value), key) in pattern.keys.iter().zip(keys) {
            if *name != key.name || is_gap && value.is_some() {
                return None;
            }
            is_gap = value.is_none();
            if let Some(value) = value {
                self.fitting(place, scope, value, Some(&key.of))?;
            }
        }
        for (name, value) in &pattern.values {
            let of = find(values, name)?;
            if let Some(value) = value {
                self.fitting(place, scope, value, Some(of))?;
            }
        }
        Some(())
    }

    fn block(&self, place: Place<'_, 'a>, scope: &mut Scope<'a>, block: &ExprBlock<'a>) -> Option<Type<'a>> {
        let size = scope.names.len();
        for bind in &block.lets {
            let of = self.expr(place, scope, &bind.value)?;
            self.introduce(place, scope, bind.name, of)?;
        }
        let of = self.expr(place, scope, &block.value)?;
        scope.shrink(size);
        Some(of)
    }

    fn name(&self, place: Place<'_, 'a>, scope: &Scope<'a>, name: &str) -> Option<Type<'a>> {
        if place.this.is_some() && name == "envelope" {
            return None;
        }
        if let Some(of) = scope.types.get(name) {
            return Some(of.clone());
        }
        match self.items.get(name)? {
            Item::Let(_, literal) => self.literal(literal),
            _ => None,
        }
    }

    fn foreign(&self, place: Place<'_, 'a>, module: &str, called: &str, arguments: &[Expr<'a>]) -> Option<Type<'a>> {
        match (module, called, arguments, place.block) {
            ("envelope", "author_id" | "command_id", [Expr::Name("envelope")], Block::Command) => Some(Type::Id),
            ("device", "current_device_id", [], Block::Action) => Some(Type::Id),
            _ => None,
        }
    }

    fn fields(&self, place: Place<'_, 'a>, scope: &mut Scope<'a>, binds: &[Bind<'a>], fields: &[&Field<'a>]) -> Option<()> {
        if binds.len() != fields.len() || !are_distinct(binds.iter().map(|bind| bind.name)) {
            return None;
        }
        for bind in binds {
            let field = fields.iter().find(|field| field.name == bind.name)?;
            self.fitting(place, scope, &bind.value, Some(&field.of))?;
        }
        Some(())
    }

    fn expr(&self, place: Place<'_, 'a>, scope: &mut Scope<'a>, expr: &Expr<'a>) -> Option<Type<'a>> {
        Some(match expr {
            Expr::Logic(a, b) => {
                self.is(place, scope, a, Type::Bool)?;
                self.is(place, scope, b, Type::Bool)?;
                Type::Bool
            }
            Expr::Equal(a, b) => {
                let one = self.expr(place, scope, a)?;
                joined(one, self.expr(place, scope, b)?)?;
                Type::Bool
            }
            Expr::Order(a, b) => {
                self.is(place, scope, a, Type::Int)?;
                self.is(place, scope, b, Type::Int)?;
                Type::Bool
            }
            Expr::Is(a) => {
                self.optional(place, scope, a)?;
                Type::Bool
            }
            Expr::Not(a) => {
                self.is(place, scope, a, Type::Bool)?;
                Type::Bool
            }
            Expr::Unwrap(a) => self.optional(place, scope, a)?,
            Expr::Field(a, name) => {
                let Type::Struct(of) = self.expr(place, scope, a)? else {
                    return None;
                };
                let fields = self.struct_fields(of)?;
                fields.iter().find(|field| field.name == *name)?.of.clone()
            }
            Expr::Literal(literal) => self.literal(literal)?,
            Expr::None => Type::Optional(Box::new(Type::Never)),
            Expr::Some(a) => Type::Optional(Box::new(self.expr(place, scope, a)?)),
            Expr::This => Type::Struct(place.this?),
            Expr::Name(name) => self.name(place, scope, name)?,
            Expr::ForeignCall(module, called, arguments) => self.foreign(place, module, called, arguments)?,
            Expr::Call(called, arguments) => {
                let Item::Function(_, parameters, result, _) = self.items.get(called)? else {
                    return None;
                };
                self.arguments(place, scope, arguments, parameters)?;
                result.clone()
            }
            Expr::Struct(name, binds) => {
                self.fields(place, scope, binds, &self.struct_fields(name)?)?;
                Type::Struct(name)
            }
            Expr::Arithmetic(is_saturating, a, b) => {
                self.is(place, scope, a, Type::Int)?;
                self.is(place, scope, b, Type::Int)?;
                if *is_saturating { Type::Int } else { Type::Optional(Box::new(Type::Int)) }
            }
            Expr::Query(pattern) => {
                self.pattern(place, scope, pattern)?;
                Type::Optional(Box::new(Type::Struct(pattern.fact)))
            }
            Expr::Exists(pattern) => {
                self.pattern(place, scope, pattern)?;
                Type::Bool
            }
            Expr::Count(is_number, limit, pattern) => {
                self.pattern(place, scope, pattern)?;
                if *limit < 1 {
                    return None;
                }
                if *is_number { Type::Int } else { Type::Bool }
            }
            Expr::If(head, then, otherwise) => {
                self.is(place, scope, head, Type::Bool)?;
                let one = self.block(place, scope, then)?;
                let other = match &**otherwise {
                    Otherwise::Block(block) => self.block(place, scope, block)?,
                    Otherwise::If(expr) => self.expr(place, scope, expr)?,
                };
                joined(one, other)?
            }
        })
    }

    fn stmts(&self, place: Place<'_, 'a>, scope: &mut Scope<'a>, stmts: &[Stmt<'a>]) -> Option<()> {
        let size = scope.names.len();
        for (i, stmt) in stmts.iter().enumerate() {
            let is_last = matches!(stmt, Stmt::Finish(_) | Stmt::Return(_));
            if is_last && i + 1 < stmts.len() {
                return None;
            }
            self.stmt(place, scope, stmt)?;
        }
        scope.shrink(size);
        Some(())
    }

    fn arms(&self, of: &Type<'a>, arms: &[Arm<'a>]) -> Option<()> {
        let is_taken = match of {
            Type::Int | Type::Bool | Type::Text | Type::Optional(_) => true,
            Type::Enum(name) => self.variants.contains_key(name),
            _ => false,
        };
        let (last, front) = arms.split_last()?;
        if !is_taken || front.iter().any(|arm| arm.pattern.is_none()) {
            return None;
        }
        let mut seen = HashSet::new();
        for literal in arms.iter().filter_map(|arm| arm.pattern.as_ref()).flatten() {
            let listed = match literal {
                None => Type::Optional(Box::new(Type::Never)),
                Some(literal) => self.literal(literal)?,
            };
            if !fits(&listed, of) || !seen.insert(literal.clone()) {
                return None;
            }
        }
        let is_whole = match of {
            Type::Bool => seen.len() == 2,
            Type::Enum(name) => seen.len() == self.variants[name].len(),
            _ => false,
        };
        (last.pattern.is_none() || is_whole).then_some(())
    }

    fn stmt(&self, place: Place<'_, 'a>, scope: &mut Scope<'a>, stmt: &Stmt<'a>) -> Option<()> {
        match stmt {
            Stmt::Let(bind) => {
                let of = self.expr(place, scope, &bind.value)?;
                self.introduce(place, scope, bind.name, of)
            }
            Stmt::Check(expr) => self.is(place, scope, expr, Type::Bool),
            Stmt::If(head, then, otherwise) => {
                self.is(place, scope, head, Type::Bool)?;
                self.stmts(place, scope, then)?;
                match otherwise {
                    None => Some(()),
                    Some(Else::Block(stmts)) => self.stmts(place, scope, stmts),
                    Some(Else::If(stmt)) => self.stmt(place, scope, stmt),
                }
            }
            Stmt::Match(head, arms) => {
                let of = self.expr(place, scope, head)?;
                self.arms(&of, arms)?;
                arms.iter().try_for_each(|arm| self.stmts(place, scope, &arm.body))
            }
            Stmt::Finish(stmts) if place.block == Block::Command => {
                let place = Place { block: Block::Finish, ..place };
                self.finish(place, scope, stmts)
            }
            Stmt::Map(pattern, name, stmts) if place.block == Block::Action => {
                self.pattern(place, scope, pattern)?;
                let size = scope.names.len();
                self.introduce(place, scope, name, Type::Struct(pattern.fact))?;
                self.stmts(place, scope, stmts)?;
                scope.shrink(size);
                Some(())
            }
            Stmt::Publish(expr) if place.block == Block::Action => match self.expr(place, scope, expr)? {
                Type::Struct(name) => matches!(self.items.get(name)?, Item::Command(_, _)).then_some(()),
                _ => None,
            },
            Stmt::Return(expr) => self.fitting(place, scope, expr, place.result),
            _ => None,
        }
    }

    fn keys(&self, place: Place<'_, 'a>, scope: &mut Scope<'a>, binds: &[Bind<'a>], keys: &[Field<'a>]) -> Option<()> {
        if binds.len() != keys.len() || !binds.iter().all(|bind| is_plain(&bind.value)) {
            return None;
        }
        for (bind, key) in binds.iter().zip(keys) {
            if bind.name != key.name {
                return None;
            }
            self.fitting(place, scope, &bind.value, Some(&key.of))?;
        }
        Some(())
    }

    fn values(&self, place: Place<'_, 'a>, scope: &mut Scope<'a>, binds: &[Bind<'a>], values: &[Field<'a>]) -> Option<()> {
        let fields: Vec<_> = values.iter().collect();
        binds.iter().all(|bind| is_plain(&bind.value)).then_some(())?;
        self.fields(place, scope, binds, &fields)
    }

    fn finish(&self, place: Place<'_, 'a>, scope: &mut Scope<'a>, stmts: &[FinishStmt<'a>]) -> Option<()> {
        for stmt in stmts {
            match stmt {
                FinishStmt::Create(fact, key_binds, value_binds) => {
                    let Item::Fact(_, _, keys, values) = self.items.get(fact)? else {
                        return None;
                    };
                    self.keys(place, scope, key_binds, keys)?;
                    self.values(place, scope, value_binds, values)?;
                }
                FinishStmt::Update(pattern, to) => {
                    let Item::Fact(false, _, keys, values) = self.items.get(pattern.fact)? else {
                        return None;
                    };
                    let is_plain_part = |part: &(&str, Option<Expr>)| part.1.as_ref().is_none_or(is_plain);
                    let is_bound = pattern.keys.len() == keys.len() && pattern.keys.iter().all(|part| part.1.is_some());
                    if !is_bound || !pattern.keys.iter().chain(&pattern.values).all(is_plain_part) {
                        return None;
                    }
                    self.pattern(place, scope, pattern)?;
                    self.values(place, scope, to, values)?;
                }
                FinishStmt::Delete(fact, key_binds) => {
                    let Item::Fact(_, _, keys, _) = self.items.get(fact)? else {
                        return None;
                    };
                    self.keys(place, scope, key_binds, keys)?;
                }
                FinishStmt::Emit(expr) => match self.expr(place, scope, expr)? {
                    Type::Struct(name) if is_plain(expr) => {
                        matches!(self.items.get(name)?, Item::Struct(_, _, true)).then_some(())?
                    }
                    _ => return None,
                },
                FinishStmt::Call(called, arguments) => {
                    let Item::FinishFunction(_, parameters, _) = self.items.get(called)? else {
                        return None;
                    };
                    arguments.iter().all(is_plain).then_some(())?;
                    self.arguments(place, scope, arguments, parameters)?;
                }
            }
        }
        Some(())
    }

    fn are_fields(&self, fields: &[Field]) -> bool {
        fields.len() <= 64
            && are_distinct(fields.iter().map(|field| field.name))
            && fields.iter().all(|field| self.exists(&field.of))
    }

    fn parameters(&self, parameters: &[Field<'a>]) -> Option<Scope<'a>> {
        let mut scope = Scope::default();
        if !self.are_fields(parameters) || parameters.iter().any(|field| self.lets.contains(field.name)) {
            return None;
        }
        for field in parameters {
            scope.types.insert(field.name, field.of.clone());
            scope.names.push(field.name);
        }
        Some(scope)
    }

    fn chain(&mut self, callee: Callee<'a>) -> usize {
        if let Some(size) = self.chains.get(&callee) {
            return *size;
        }
        let size = match (callee.0, self.items.get(callee.1).copied()) {
            (true, Some(item @ Item::Function(..))) | (false, Some(item @ Item::FinishFunction(..))) => {
                self.chains.insert(callee, ENDLESS);
                1 + self.longest(Calls::of_item(item))
            }
            _ => 0,
        };
        self.chains.insert(callee, size.min(ENDLESS));
        size.min(ENDLESS)
    }

    fn longest(&mut self, callees: Vec<Callee<'a>>) -> usize {
        callees.into_iter().map(|callee| self.chain(callee)).max().unwrap_or(0)
    }

    fn depth(&mut self, name: &'a str) -> usize {
        fn inner<'a>(of: &Type<'a>) -> Option<&'a str> {
            match of {
                Type::Struct(name) => Some(name),
                Type::Optional(of) => inner(of),
                _ => None,
            }
        }
        if let Some(depth) = self.depths.get(name) {
            return *depth;
        }
        let Some(fields) = self.struct_fields(name) else {
            return 0;
        };
        self.depths.insert(name, ENDLESS);
        let deepest = fields.iter().filter_map(|field| inner(&field.of)).map(|name| self.depth(name)).max();
        let depth = (1 + deepest.unwrap_or(0)).min(ENDLESS);
        self.depths.insert(name, depth);
        depth
    }

    fn sections(&self, name: &'a str, sections: &[Section<'a>]) -> Option<()> {
        let count = |test: fn(&Section) -> bool| sections.iter().filter(|section| test(section)).count();
        let is_whole = count(|it| matches!(it, Section::Fields(_))) == 1
            && count(|it| matches!(it, Section::Seal)) == 1
            && count(|it| matches!(it, Section::Open)) == 1
            && count(|it| matches!(it, Section::Policy(_))) == 1
            && count(|it| matches!(it, Section::Recall(_))) <= 1
            && count(|it| matches!(it, Section::Attributes(_))) <= 1;
        if !is_whole {
            return None;
        }
        for section in sections {
            let is_well = match section {
                Section::Attributes(attributes) => {
                    let is_known = |(name, value): &(&str, Literal)| match (*name, value) {
                        ("init" | "finalize", Literal::True | Literal::False) => true,
                        ("priority", Literal::Number(number)) => (0..1 << 32).contains(number),
                        _ => false,
                    };
                    let effective = attributes.iter().filter(|(_, value)| *value != Literal::False);
                    attributes.iter().all(is_known) && effective.count() <= 1
                }
                Section::Fields(fields) => self.are_fields(fields),
                Section::Seal | Section::Open => true,
                Section::Policy(stmts) | Section::Recall(stmts) => {
                    let place = Place { block: Block::Command, this: Some(name), result: None };
                    self.stmts(place, &mut Scope::default(), stmts).is_some()
                }
            };
            if !is_well {
                return None;
            }
        }
        Some(())
    }

    fn item(&mut self, item: &'t Item<'a>) -> Option<()> {
        let place = |block, result| Place { block, this: None, result };
        let is_well = match item {
            Item::Use => true,
            Item::Let(_, literal) => self.literal(literal).is_some(),
            Item::Enum(_, variants) => (1..=1024).contains(&variants.len()) && are_distinct(variants.iter()),
            Item::Struct(_, fields, _) => self.are_fields(fields),
            Item::Fact(_, _, keys, values) => {
                self.are_fields(keys)
                    && self.are_fields(values)
                    && keys.iter().all(|key| !matches!(key.of, Type::Struct(_) | Type::Optional(_)))
                    && values.iter().all(|value| find(keys, value.name).is_none())
            }
            Item::Command(name, sections) => self.sections(name, sections).is_some(),
            Item::Function(_, parameters, result, stmts) => {
                let mut scope = self.parameters(parameters)?;
                self.exists(result)
                    && self.stmts(place(Block::Function, Some(result)), &mut scope, stmts).is_some()
                    && returns(stmts)
            }
            Item::FinishFunction(_, parameters, stmts) => {
                let mut scope = self.parameters(parameters)?;
                self.finish(place(Block::Finish, None), &mut scope, stmts).is_some()
            }
            Item::Action(_, parameters, stmts) => {
                let mut scope = self.parameters(parameters)?;
                self.stmts(place(Block::Action, None), &mut scope, stmts).is_some()
            }
        };
        let is_shallow = match item {
            Item::Struct(name, ..) | Item::Fact(_, name, ..) | Item::Command(name, _) => self.depth(name) <= 8,
            _ => true,
        };
        (is_well && is_shallow && self.longest(Calls::of_item(item)) <= 16).then_some(())
    }
}

/// The line of the first item that isn't well typed.
fn fault(all: &[(usize, Item)]) -> Option<usize> {
    let mut policy = Policy::new(all);
    let mut names = HashSet::new();
    let ill = all.iter().find(|(_, item)| {
        let is_free = name(item).is_none_or(|name| name != "Envelope" && names.insert(name));
        !is_free || policy.item(item).is_none()
    });
    ill.map(|(line, _)| *line)
}

/// Prints how many items a policy has, or its fault.
pub fn check_policy(policy: &str) -> ExitCode {
    let bytes = fs::read(policy).expect("a policy");
    let (fault, line) = match read_tokens(&bytes) {
        Err(fault) => tokens::told(fault),
        Ok(tokens) => match items(&tokens) {
            Err(line) => ("syntax", line),
            Ok(items) => match fault(&items) {
                Some(line) => ("type", line),
                None => {
                    println!("policy ok: items {}", items.len());
                    return ExitCode::SUCCESS;
                }
            },
        },
    };
    println!("policy refused: {fault}, line {line}");
    ExitCode::FAILURE
}
