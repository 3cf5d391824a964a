//! The trees of a policy's items. How deep they are isn't limited here.

use crate::tokens::{Kind, Token};

#[derive(Clone, PartialEq)]
pub enum Type<'a> {
    Int,
    Bool,
    Text,
    Bytes,
    Id,
    Enum(&'a str),
    Struct(&'a str),
    Optional(Box<Type<'a>>),
    /// The type of no value.
    Never,
}

pub struct Field<'a> {
    pub name: &'a str,
    pub of: Type<'a>,
}

#[derive(Clone, PartialEq, Eq, Hash)]
pub enum Literal<'a> {
    Number(i64),
    Text(&'a str),
    True,
    False,
    Variant(&'a str, &'a str),
}

pub struct Bind<'a> {
    pub name: &'a str,
    pub value: Expr<'a>,
}

pub struct Pattern<'a> {
    pub fact: &'a str,
    pub keys: Vec<(&'a str, Option<Expr<'a>>)>,
    pub values: Vec<(&'a str, Option<Expr<'a>>)>,
}

pub struct ExprBlock<'a> {
    pub lets: Vec<Bind<'a>>,
    pub value: Expr<'a>,
}

pub enum Otherwise<'a> {
    Block(ExprBlock<'a>),
    If(Expr<'a>),
}

pub enum Expr<'a> {
    /// `&&` and `||`
    Logic(Box<Expr<'a>>, Box<Expr<'a>>),
    /// `==` and `!=`
    Equal(Box<Expr<'a>>, Box<Expr<'a>>),
    Order(Box<Expr<'a>>, Box<Expr<'a>>),
    Is(Box<Expr<'a>>),
    Not(Box<Expr<'a>>),
    Unwrap(Box<Expr<'a>>),
    Field(Box<Expr<'a>>, &'a str),
    Literal(Literal<'a>),
    None,
    Some(Box<Expr<'a>>),
    This,
    Name(&'a str),
    ForeignCall(&'a str, &'a str, Vec<Expr<'a>>),
    Call(&'a str, Vec<Expr<'a>>),
    Struct(&'a str, Vec<Bind<'a>>),
    /// Whether it stops at the ends, and the operands.
    Arithmetic(bool, Box<Expr<'a>>, Box<Expr<'a>>),
    Query(Pattern<'a>),
    Exists(Pattern<'a>),
    /// Whether it gives the number, the number against which is counted, and what is counted.
    Count(bool, i64, Pattern<'a>),
    If(Box<Expr<'a>>, Box<ExprBlock<'a>>, Box<Otherwise<'a>>),
}

pub enum Else<'a> {
    Block(Vec<Stmt<'a>>),
    If(Box<Stmt<'a>>),
}

pub struct Arm<'a> {
    /// None for `_`, and a None inside for `None`.
    pub pattern: Option<Vec<Option<Literal<'a>>>>,
    pub body: Vec<Stmt<'a>>,
}

pub enum Stmt<'a> {
    Let(Bind<'a>),
    Check(Expr<'a>),
    If(Expr<'a>, Vec<Stmt<'a>>, Option<Else<'a>>),
    Match(Expr<'a>, Vec<Arm<'a>>),
    Finish(Vec<FinishStmt<'a>>),
    Map(Pattern<'a>, &'a str, Vec<Stmt<'a>>),
    Publish(Expr<'a>),
    Return(Expr<'a>),
}

pub enum FinishStmt<'a> {
    Create(&'a str, Vec<Bind<'a>>, Vec<Bind<'a>>),
    Update(Pattern<'a>, Vec<Bind<'a>>),
    Delete(&'a str, Vec<Bind<'a>>),
    Emit(Expr<'a>),
    Call(&'a str, Vec<Expr<'a>>),
}

pub enum Section<'a> {
    Attributes(Vec<(&'a str, Literal<'a>)>),
    Fields(Vec<Field<'a>>),
    Seal,
    Open,
    Policy(Vec<Stmt<'a>>),
    Recall(Vec<Stmt<'a>>),
}

pub enum Item<'a> {
    Use,
    Let(&'a str, Literal<'a>),
    Enum(&'a str, Vec<&'a str>),
    /// A struct or an effect, and whether it is an effect.
    Struct(&'a str, Vec<Field<'a>>, bool),
    Fact(bool, &'a str, Vec<Field<'a>>, Vec<Field<'a>>),
    Command(&'a str, Vec<Section<'a>>),
    Function(&'a str, Vec<Field<'a>>, Type<'a>, Vec<Stmt<'a>>),
    FinishFunction(&'a str, Vec<Field<'a>>, Vec<FinishStmt<'a>>),
    Action(&'a str, Vec<Field<'a>>, Vec<Stmt<'a>>),
}

const RESERVED: [&str; 41] = [
    "use", "let", "enum", "struct", "effect", "immutable", "fact", "command", "function", "finish",
    "action", "check", "if", "else", "match", "map", "publish", "return", "create", "update",
    "delete", "emit", "is", "Some", "None", "unwrap", "check_unwrap", "this", "add", "sub",
    "saturating_add", "saturating_sub", "query", "exists", "at_least", "at_most", "exactly",
    "count_up_to", "true", "false", "optional",
];

struct Parser<'a> {
    tokens: &'a [Token<'a>],
    at: usize,
}

impl<'a> Parser<'a> {
    fn peek(&self) -> Option<&'a Kind<'a>> {
        self.tokens.get(self.at).map(|token| &token.kind)
    }

    fn word(&mut self) -> Option<&'a str> {
        let Some(Kind::Word(word)) = self.peek() else {
            return None;
        };
        self.at += 1;
        Some(word)
    }

    fn name(&mut self) -> Option<&'a str> {
        self.word().filter(|word| !RESERVED.contains(word))
    }

    fn number(&mut self) -> Option<i64> {
        let Some(Kind::Number(number)) = self.peek() else {
            return None;
        };
        self.at += 1;
        Some(*number)
    }

    fn takes_word(&mut self, word: &str) -> bool {
        let is = matches!(self.peek(), Some(Kind::Word(other)) if *other == word);
        self.at += usize::from(is);
        is
    }

    fn takes(&mut self, symbol: &str) -> bool {
        let is = matches!(self.peek(), Some(Kind::Symbol(other)) if *other == symbol);
        self.at += usize::from(is);
        is
    }

    fn wants(&mut self, symbol: &str) -> Option<()> {
        self.takes(symbol).then_some(())
    }

    fn list<T>(&mut self, close: &str, part: impl Fn(&mut Self) -> Option<T>) -> Option<Vec<T>> {
        let mut parts = Vec::new();
        while !self.takes(close) {
            parts.push(part(self)?);
            if !self.takes(",") {
                self.wants(close)?;
                break;
            }
        }
        Some(parts)
    }

    fn many<T>(&mut self, part: impl Fn(&mut Self) -> Option<T>) -> Option<Vec<T>> {
        self.wants("{")?;
        let mut parts = Vec::new();
        while !self.takes("}") {
            parts.push(part(self)?);
        }
        Some(parts)
    }

    /// Words and symbols that always stand so.
    fn fixed(&mut self, pieces: &str) -> Option<()> {
        pieces
            .split(' ')
            .all(|piece| self.takes(piece) || self.takes_word(piece))
            .then_some(())
    }

    fn of(&mut self) -> Option<Type<'a>> {
        Some(match self.word()? {
            "int" => Type::Int,
            "bool" => Type::Bool,
            "string" => Type::Text,
            "bytes" => Type::Bytes,
            "id" => Type::Id,
            "enum" => Type::Enum(self.name()?),
            "struct" => Type::Struct(self.name()?),
            "optional" => Type::Optional(Box::new(self.of()?)),
            _ => return None,
        })
    }

    fn field(&mut self) -> Option<Field<'a>> {
        Some(Field {
            name: self.name()?,
            of: self.of()?,
        })
    }

    fn fields(&mut self, open: &str, close: &str) -> Option<Vec<Field<'a>>> {
        self.wants(open)?;
        self.list(close, Self::field)
    }

    fn literal(&mut self) -> Option<Literal<'a>> {
        match self.peek()? {
            Kind::Number(number) => {
                self.at += 1;
                Some(Literal::Number(*number))
            }
            Kind::Text(text) => {
                self.at += 1;
                Some(Literal::Text(text))
            }
            Kind::Word("true") => {
                self.at += 1;
                Some(Literal::True)
            }
            Kind::Word("false") => {
                self.at += 1;
                Some(Literal::False)
            }
            _ => {
                let name = self.name()?;
                self.wants("::")?;
                Some(Literal::Variant(name, self.name()?))
            }
        }
    }

    fn bind(&mut self) -> Option<Bind<'a>> {
        let name = self.name()?;
        self.wants(":")?;
        Some(Bind {
            name,
            value: self.expr(false)?,
        })
    }

    fn free(&mut self) -> Option<(&'a str, Option<Expr<'a>>)> {
        let name = self.name()?;
        self.wants(":")?;
        if self.takes("?") {
            return Some((name, None));
        }
        Some((name, Some(self.expr(false)?)))
    }

    fn pattern(&mut self) -> Option<Pattern<'a>> {
        let fact = self.name()?;
        self.wants("[")?;
        let keys = self.list("]", Self::free)?;
        let mut values = Vec::new();
        if self.takes("=>") {
            self.wants("{")?;
            values = self.list("}", Self::free)?;
        }
        Some(Pattern { fact, keys, values })
    }

    fn bound(&mut self) -> Option<Bind<'a>> {
        let name = self.name()?;
        self.wants("=")?;
        Some(Bind {
            name,
            value: self.expr(false)?,
        })
    }

    fn expr_block(&mut self) -> Option<ExprBlock<'a>> {
        self.wants("{")?;
        let mut lets = Vec::new();
        while self.takes_word("let") {
            lets.push(self.bound()?);
        }
        self.wants(":")?;
        let value = self.expr(false)?;
        self.wants("}")?;
        Some(ExprBlock { lets, value })
    }

    fn if_expr(&mut self) -> Option<Expr<'a>> {
        let head = self.expr(true)?;
        let then = self.expr_block()?;
        if !self.takes_word("else") {
            return None;
        }
        let otherwise = if self.takes_word("if") {
            Otherwise::If(self.if_expr()?)
        } else {
            Otherwise::Block(self.expr_block()?)
        };
        Some(Expr::If(Box::new(head), Box::new(then), Box::new(otherwise)))
    }

    /// An expression; as a head it has no `Name {` outside of brackets.
    fn expr(&mut self, is_head: bool) -> Option<Expr<'a>> {
        let mut left = self.all(is_head)?;
        while self.takes("||") {
            left = Expr::Logic(Box::new(left), Box::new(self.all(is_head)?));
        }
        Some(left)
    }

    fn all(&mut self, is_head: bool) -> Option<Expr<'a>> {
        let mut left = self.compared(is_head)?;
        while self.takes("&&") {
            left = Expr::Logic(Box::new(left), Box::new(self.compared(is_head)?));
        }
        Some(left)
    }

    fn compared(&mut self, is_head: bool) -> Option<Expr<'a>> {
        let left = Box::new(self.unary(is_head)?);
        if self.takes("==") || self.takes("!=") {
            return Some(Expr::Equal(left, Box::new(self.unary(is_head)?)));
        }
        if ["<", "<=", ">", ">="].iter().any(|symbol| self.takes(symbol)) {
            return Some(Expr::Order(left, Box::new(self.unary(is_head)?)));
        }
        if self.takes_word("is") {
            return (self.takes_word("Some") || self.takes_word("None")).then_some(Expr::Is(left));
        }
        Some(*left)
    }

    fn unary(&mut self, is_head: bool) -> Option<Expr<'a>> {
        if self.takes("!") {
            return Some(Expr::Not(Box::new(self.unary(is_head)?)));
        }
        if self.takes_word("unwrap") || self.takes_word("check_unwrap") {
            return Some(Expr::Unwrap(Box::new(self.unary(is_head)?)));
        }
        let mut expr = self.primary(is_head)?;
        while self.takes(".") {
            expr = Expr::Field(Box::new(expr), self.name()?);
        }
        Some(expr)
    }

    fn two(&mut self) -> Option<(Box<Expr<'a>>, Box<Expr<'a>>)> {
        self.wants("(")?;
        let left = self.expr(false)?;
        self.wants(",")?;
        let right = self.expr(false)?;
        self.wants(")")?;
        Some((Box::new(left), Box::new(right)))
    }

    fn primary(&mut self, is_head: bool) -> Option<Expr<'a>> {
        if self.takes("(") {
            let inner = self.expr(false)?;
            self.wants(")")?;
            return Some(inner);
        }
        let Some(Kind::Word(word)) = self.peek() else {
            return self.literal().map(Expr::Literal);
        };
        let start = self.at;
        self.at += 1;
        match *word {
            "true" => Some(Expr::Literal(Literal::True)),
            "false" => Some(Expr::Literal(Literal::False)),
            "None" => Some(Expr::None),
            "this" => Some(Expr::This),
            "Some" => {
                self.wants("(")?;
                let inner = self.expr(false)?;
                self.wants(")")?;
                Some(Expr::Some(Box::new(inner)))
            }
            "if" => self.if_expr(),
            "query" => self.pattern().map(Expr::Query),
            "exists" => self.pattern().map(Expr::Exists),
            word @ ("at_least" | "at_most" | "exactly" | "count_up_to") => {
                let number = self.number()?;
                Some(Expr::Count(word == "count_up_to", number, self.pattern()?))
            }
            word @ ("add" | "sub" | "saturating_add" | "saturating_sub") => {
                let (left, right) = self.two()?;
                Some(Expr::Arithmetic(word.starts_with("sat"), left, right))
            }
            _ => {
                self.at = start;
                self.named(is_head)
            }
        }
    }

    fn named(&mut self, is_head: bool) -> Option<Expr<'a>> {
        let name = self.name()?;
        if self.takes("::") {
            let second = self.name()?;
            if self.takes("(") {
                let arguments = self.list(")", |it| it.expr(false))?;
                return Some(Expr::ForeignCall(name, second, arguments));
            }
            return Some(Expr::Literal(Literal::Variant(name, second)));
        }
        if self.takes("(") {
            return Some(Expr::Call(name, self.list(")", |it| it.expr(false))?));
        }
        if !is_head && self.takes("{") {
            return Some(Expr::Struct(name, self.list("}", Self::bind)?));
        }
        Some(Expr::Name(name))
    }

    fn block(&mut self) -> Option<Vec<Stmt<'a>>> {
        self.many(Self::stmt)
    }

    fn if_stmt(&mut self) -> Option<Stmt<'a>> {
        let head = self.expr(true)?;
        let then = self.block()?;
        let otherwise = if !self.takes_word("else") {
            None
        } else if self.takes_word("if") {
            Some(Else::If(Box::new(self.if_stmt()?)))
        } else {
            Some(Else::Block(self.block()?))
        };
        Some(Stmt::If(head, then, otherwise))
    }

    fn listed(&mut self) -> Option<Option<Literal<'a>>> {
        if self.takes_word("None") {
            return Some(None);
        }
        self.literal().map(Some)
    }

    fn arm(&mut self) -> Option<Arm<'a>> {
        let pattern = if self.takes("_") {
            None
        } else {
            let mut literals = vec![self.listed()?];
            while self.takes("|") {
                literals.push(self.listed()?);
            }
            Some(literals)
        };
        self.wants("=>")?;
        let body = self.block()?;
        self.takes(",");
        Some(Arm { pattern, body })
    }

    fn stmt(&mut self) -> Option<Stmt<'a>> {
        Some(match self.word()? {
            "let" => Stmt::Let(self.bound()?),
            "check" => Stmt::Check(self.expr(false)?),
            "if" => self.if_stmt()?,
            "match" => Stmt::Match(self.expr(true)?, self.many(Self::arm)?),
            "finish" => Stmt::Finish(self.many(Self::finish_stmt)?),
            "map" => {
                let pattern = self.pattern()?;
                self.fixed("as")?;
                Stmt::Map(pattern, self.name()?, self.block()?)
            }
            "publish" => Stmt::Publish(self.expr(false)?),
            "return" => Stmt::Return(self.expr(false)?),
            _ => return None,
        })
    }

    fn binds(&mut self, open: &str, close: &str) -> Option<Vec<Bind<'a>>> {
        self.wants(open)?;
        self.list(close, Self::bind)
    }

    fn finish_stmt(&mut self) -> Option<FinishStmt<'a>> {
        let start = self.at;
        Some(match self.word()? {
            "create" => {
                let fact = self.name()?;
                let keys = self.binds("[", "]")?;
                self.wants("=>")?;
                FinishStmt::Create(fact, keys, self.binds("{", "}")?)
            }
            "update" => {
                let pattern = self.pattern()?;
                self.fixed("to")?;
                FinishStmt::Update(pattern, self.binds("{", "}")?)
            }
            "delete" => FinishStmt::Delete(self.name()?, self.binds("[", "]")?),
            "emit" => FinishStmt::Emit(self.expr(false)?),
            _ => {
                self.at = start;
                let name = self.name()?;
                self.wants("(")?;
                FinishStmt::Call(name, self.list(")", |it| it.expr(false))?)
            }
        })
    }

    fn section(&mut self) -> Option<Section<'a>> {
        Some(match self.word()? {
            "attributes" => {
                self.wants("{")?;
                Section::Attributes(self.list("}", |it| {
                    let name = it.name()?;
                    it.wants(":")?;
                    Some((name, it.literal()?))
                })?)
            }
            "fields" => Section::Fields(self.fields("{", "}")?),
            "seal" => {
                self.fixed("{ return envelope :: do_seal ( serialize ( this ) ) }")?;
                Section::Seal
            }
            "open" => {
                self.fixed("{ return deserialize ( envelope :: do_open ( envelope ) ) }")?;
                Section::Open
            }
            "policy" => Section::Policy(self.block()?),
            "recall" => Section::Recall(self.block()?),
            _ => return None,
        })
    }

    fn fact(&mut self, is_immutable: bool) -> Option<Item<'a>> {
        let name = self.name()?;
        let keys = self.fields("[", "]")?;
        self.wants("=>")?;
        Some(Item::Fact(is_immutable, name, keys, self.fields("{", "}")?))
    }

    fn effect_field(&mut self) -> Option<Field<'a>> {
        let field = self.field()?;
        self.takes_word("dynamic");
        Some(field)
    }

    fn item(&mut self) -> Option<Item<'a>> {
        Some(match self.word()? {
            "use" => {
                self.name()?;
                Item::Use
            }
            "let" => {
                let name = self.name()?;
                self.wants("=")?;
                Item::Let(name, self.literal()?)
            }
            "enum" => {
                let name = self.name()?;
                self.wants("{")?;
                Item::Enum(name, self.list("}", Self::name)?)
            }
            "struct" => Item::Struct(self.name()?, self.fields("{", "}")?, false),
            "effect" => {
                let name = self.name()?;
                self.wants("{")?;
                Item::Struct(name, self.list("}", Self::effect_field)?, true)
            }
            "immutable" => {
                self.fixed("fact")?;
                self.fact(true)?
            }
            "fact" => self.fact(false)?,
            "command" => Item::Command(self.name()?, self.many(Self::section)?),
            "function" => {
                let name = self.name()?;
                let parameters = self.fields("(", ")")?;
                Item::Function(name, parameters, self.of()?, self.block()?)
            }
            "finish" => {
                self.fixed("function")?;
                let name = self.name()?;
                let parameters = self.fields("(", ")")?;
                Item::FinishFunction(name, parameters, self.many(Self::finish_stmt)?)
            }
            "action" => Item::Action(self.name()?, self.fields("(", ")")?, self.block()?),
            _ => return None,
        })
    }
}

/// The items, each with its line, or the line of the first token behind the whole items.
pub fn items<'a>(tokens: &'a [Token<'a>]) -> Result<Vec<(usize, Item<'a>)>, usize> {
    let mut parser = Parser { tokens, at: 0 };
    let mut items = Vec::new();
    while let Some(first) = tokens.get(parser.at) {
        items.push((first.line, parser.item().ok_or(first.line)?));
    }
    Ok(items)
}
