//! Reading expressions: one function for each level of binding.

use std::rc::Rc;

use crate::matcher::Matcher;
use crate::pattern::parse_pattern;
use crate::syntax::{BinaryOp, Expr, Name, Names, UnaryOp};
use crate::token::{Keyword, Sign, Token};

pub struct Parser {
    tokens: Vec<Token>,
    at: usize,
    pub names: Names,
}

fn boxed(expr: Expr) -> Box<Expr> {
    Box::new(expr)
}

fn binary(op: BinaryOp, left: Expr, right: Expr) -> Expr {
    Expr::Binary(op, boxed(left), boxed(right))
}

fn sum_op(sign: Sign) -> Option<BinaryOp> {
    match sign {
        Sign::Plus => Some(BinaryOp::Add),
        Sign::Minus => Some(BinaryOp::Subtract),
        _ => None,
    }
}

fn product_op(sign: Sign) -> Option<BinaryOp> {
    match sign {
        Sign::Star => Some(BinaryOp::Multiply),
        Sign::Slash => Some(BinaryOp::Divide),
        Sign::Percent => Some(BinaryOp::Remainder),
        _ => None,
    }
}

fn compare_op(sign: Sign) -> Option<BinaryOp> {
    match sign {
        Sign::Equal => Some(BinaryOp::Equal),
        Sign::NotEqual => Some(BinaryOp::NotEqual),
        Sign::Less => Some(BinaryOp::Less),
        Sign::AtMost => Some(BinaryOp::AtMost),
        Sign::Greater => Some(BinaryOp::Greater),
        Sign::AtLeast => Some(BinaryOp::AtLeast),
        _ => None,
    }
}

impl Parser {
    pub fn new(tokens: Vec<Token>) -> Parser {
        Parser { tokens, at: 0, names: Names::new() }
    }

    pub fn peek(&self) -> Option<&Token> {
        self.tokens.get(self.at)
    }

    pub fn sees(&self, sign: Sign) -> bool {
        self.peek() == Some(&Token::Sign(sign))
    }

    pub fn accept(&mut self, sign: Sign) -> bool {
        let seen = self.sees(sign);
        self.at += usize::from(seen);
        seen
    }

    pub fn accept_keyword(&mut self, keyword: Keyword) -> bool {
        let seen = self.peek() == Some(&Token::Keyword(keyword));
        self.at += usize::from(seen);
        seen
    }

    /// The sign must stand here.
    pub fn expect(&mut self, sign: Sign) -> Option<()> {
        self.accept(sign).then_some(())
    }

    pub fn take(&mut self) -> Option<Token> {
        let token = self.tokens.get(self.at).cloned()?;
        self.at += 1;
        Some(token)
    }

    pub fn name(&mut self) -> Option<Name> {
        match self.take()? {
            Token::Name(name) => Some(self.names.place_of(&name)),
            _ => None,
        }
    }

    /// The operator at this place, if it is one of a level, and past it.
    fn accept_op(&mut self, of_level: fn(Sign) -> Option<BinaryOp>) -> Option<BinaryOp> {
        let op = match self.peek()? {
            Token::Sign(sign) => of_level(*sign)?,
            _ => return None,
        };
        self.at += 1;
        Some(op)
    }

    pub fn expression(&mut self) -> Option<Expr> {
        let left = self.or()?;
        if !left.is_settable() || !self.accept(Sign::Assign) {
            // An `=` behind something that cannot be set is left over.
            return Some(left);
        }
        let right = self.expression()?;
        Some(Expr::Assign(boxed(left), boxed(right)))
    }

    /// One expression or more, with commas between.
    pub fn expressions(&mut self) -> Option<Vec<Expr>> {
        let mut list = vec![self.expression()?];
        while self.accept(Sign::Comma) {
            list.push(self.expression()?);
        }
        Some(list)
    }

    fn or(&mut self) -> Option<Expr> {
        let mut left = self.and()?;
        while self.accept(Sign::Or) {
            left = binary(BinaryOp::Or, left, self.and()?);
        }
        Some(left)
    }

    fn and(&mut self) -> Option<Expr> {
        let mut left = self.matching()?;
        while self.accept(Sign::And) {
            left = binary(BinaryOp::And, left, self.matching()?);
        }
        Some(left)
    }

    /// At most one of `~`, `!~` and `in`.
    fn matching(&mut self) -> Option<Expr> {
        let left = self.comparison()?;
        if self.accept(Sign::Tilde) {
            return Some(Expr::Match(boxed(left), self.pattern()?));
        }
        if self.accept(Sign::NotTilde) {
            let matching = Expr::Match(boxed(left), self.pattern()?);
            return Some(Expr::Unary(UnaryOp::Not, boxed(matching)));
        }
        if self.accept_keyword(Keyword::In) {
            return Some(Expr::InTable(boxed(left), self.name()?));
        }
        Some(left)
    }

    /// A comparison is of two: a second comparing sign is left over.
    fn comparison(&mut self) -> Option<Expr> {
        let left = self.joining()?;
        match self.accept_op(compare_op) {
            Some(op) => Some(binary(op, left, self.joining()?)),
            None => Some(left),
        }
    }

    fn joining(&mut self) -> Option<Expr> {
        let mut left = self.sum()?;
        while self.begins_joined() {
            left = binary(BinaryOp::Join, left, self.sum()?);
        }
        Some(left)
    }

    /// Whether something that is joined to what stands before can begin here. A minus
    /// cannot: it is a difference.
    fn begins_joined(&self) -> bool {
        match self.peek() {
            Some(Token::Name(_) | Token::Number(_) | Token::Quoted(_)) => true,
            Some(Token::Sign(sign)) => matches!(sign, Sign::Dollar | Sign::OpenParen | Sign::Not),
            Some(Token::Keyword(keyword)) => matches!(
                keyword,
                Keyword::Length
                    | Keyword::Upper
                    | Keyword::Index
                    | Keyword::Substr
                    | Keyword::Split
                    | Keyword::Swap
            ),
            None => false,
        }
    }

    fn sum(&mut self) -> Option<Expr> {
        let mut left = self.product()?;
        while let Some(op) = self.accept_op(sum_op) {
            left = binary(op, left, self.product()?);
        }
        Some(left)
    }

    fn product(&mut self) -> Option<Expr> {
        let mut left = self.unary()?;
        while let Some(op) = self.accept_op(product_op) {
            left = binary(op, left, self.unary()?);
        }
        Some(left)
    }

    fn unary(&mut self) -> Option<Expr> {
        if self.accept(Sign::Not) {
            return Some(Expr::Unary(UnaryOp::Not, boxed(self.unary()?)));
        }
        if self.accept(Sign::Minus) {
            return Some(Expr::Unary(UnaryOp::Negate, boxed(self.unary()?)));
        }
        self.primary()
    }

    fn primary(&mut self) -> Option<Expr> {
        match self.take()? {
            Token::Number(n) => Some(Expr::Number(n)),
            Token::Quoted(text) => Some(Expr::Text(Rc::from(text))),
            Token::Sign(Sign::OpenParen) => {
                let inner = self.expression()?;
                self.expect(Sign::CloseParen)?;
                Some(inner)
            }
            Token::Sign(Sign::Dollar) => Some(Expr::Field(boxed(self.unary()?))),
            Token::Sign(_) => None,
            Token::Keyword(keyword) => self.builtin(keyword),
            Token::Name(name) => {
                let name = self.names.place_of(&name);
                self.named(name)
            }
        }
    }

    /// A name: an item if a bracket follows, a call if a parenthesis does, with or without
    /// blanks between.
    fn named(&mut self, name: Name) -> Option<Expr> {
        if self.accept(Sign::OpenBracket) {
            let key = self.expression()?;
            self.expect(Sign::CloseBracket)?;
            return Some(Expr::Item(name, boxed(key)));
        }
        if !self.accept(Sign::OpenParen) {
            return Some(Expr::Variable(name));
        }
        if self.accept(Sign::CloseParen) {
            return Some(Expr::Call(name, Vec::new()));
        }
        let args = self.expressions()?;
        self.expect(Sign::CloseParen)?;
        Some(Expr::Call(name, args))
    }

    fn builtin(&mut self, keyword: Keyword) -> Option<Expr> {
        let reads: fn(&mut Parser) -> Option<Expr> = match keyword {
            Keyword::Length => |p| Some(Expr::Unary(UnaryOp::Length, boxed(p.expression()?))),
            Keyword::Upper => |p| Some(Expr::Unary(UnaryOp::Upper, boxed(p.expression()?))),
            Keyword::Index => |p| {
                let text = p.expression()?;
                p.expect(Sign::Comma)?;
                Some(binary(BinaryOp::Index, text, p.expression()?))
            },
            Keyword::Substr => Parser::substr,
            Keyword::Split => Parser::split,
            Keyword::Swap => Parser::swap,
            _ => return None,
        };
        self.expect(Sign::OpenParen)?;
        let expr = reads(self)?;
        self.expect(Sign::CloseParen)?;
        Some(expr)
    }

    fn substr(&mut self) -> Option<Expr> {
        let text = self.expression()?;
        self.expect(Sign::Comma)?;
        let from = self.expression()?;
        self.expect(Sign::Comma)?;
        let count = self.expression()?;
        Some(Expr::Substr(Box::new([text, from, count])))
    }

    fn split(&mut self) -> Option<Expr> {
        let text = self.expression()?;
        self.expect(Sign::Comma)?;
        let table = self.name()?;
        self.expect(Sign::Comma)?;
        Some(Expr::Split(boxed(text), table, self.pattern()?))
    }

    fn swap(&mut self) -> Option<Expr> {
        let pattern = self.pattern()?;
        self.expect(Sign::Comma)?;
        let new = self.expression()?;
        self.expect(Sign::Comma)?;
        let place = self.expression()?;
        place.is_settable().then(|| Expr::Swap(pattern, boxed(new), boxed(place)))
    }

    /// A quoted text that is a pattern.
    fn pattern(&mut self) -> Option<Rc<Matcher>> {
        match self.take()? {
            Token::Quoted(text) => Some(Rc::new(Matcher::new(parse_pattern(&text)?))),
            _ => None,
        }
    }
}
