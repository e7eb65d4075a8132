//! Reading statements, rules, functions and whole programs.

use std::rc::Rc;

use crate::parse_expr::Parser;
use crate::syntax::{Expr, Function, Name, Program, Rule, Stmt, When};
use crate::token::{tokens, Keyword, Sign, Token};

/// The program that a text is, if it is one.
pub fn parse(text: &[u8]) -> Option<Program> {
    let mut parser = Parser::new(tokens(text)?);
    let mut rules = Vec::new();
    let mut functions = Vec::new();
    while parser.peek().is_some() {
        if parser.accept_keyword(Keyword::Function) {
            functions.push(parser.function()?);
        } else {
            rules.push(parser.rule()?);
        }
    }
    Some(Program { names: parser.names, rules, functions })
}

impl Parser {
    fn function(&mut self) -> Option<Function> {
        let name = self.name()?;
        self.expect(Sign::OpenParen)?;
        let params = if self.sees(Sign::CloseParen) { Vec::new() } else { self.params()? };
        self.expect(Sign::CloseParen)?;
        let body = self.block()?;
        Some(Function { name, params, body })
    }

    fn params(&mut self) -> Option<Vec<Name>> {
        let mut params = vec![self.name()?];
        while self.accept(Sign::Comma) {
            params.push(self.name()?);
        }
        Some(params)
    }

    fn rule(&mut self) -> Option<Rule> {
        let when = if self.accept_keyword(Keyword::Begin) {
            When::Begin
        } else if self.accept_keyword(Keyword::End) {
            When::End
        } else if self.sees(Sign::OpenBrace) {
            When::EveryLine
        } else {
            When::If(self.expression()?)
        };
        let body = self.block()?;
        Some(Rule { when, body })
    }

    /// From the opening brace to the closing one.
    fn block(&mut self) -> Option<Vec<Stmt>> {
        self.expect(Sign::OpenBrace)?;
        let mut body = Vec::new();
        while !self.accept(Sign::CloseBrace) {
            self.statement_into(&mut body)?;
        }
        Some(body)
    }

    fn statement(&mut self) -> Option<Vec<Stmt>> {
        let mut body = Vec::new();
        self.statement_into(&mut body)?;
        Some(body)
    }

    /// A block's statements go straight into what stands around it: a block is nothing of
    /// its own.
    fn statement_into(&mut self, body: &mut Vec<Stmt>) -> Option<()> {
        if self.sees(Sign::OpenBrace) {
            body.extend(self.block()?);
            return Some(());
        }
        let statement = match self.peek()? {
            Token::Keyword(keyword) => self.keyword_statement(*keyword)?,
            _ => Stmt::Expr(self.closed_expression()?),
        };
        body.push(statement);
        Some(())
    }

    fn keyword_statement(&mut self, keyword: Keyword) -> Option<Stmt> {
        let reads: fn(&mut Parser) -> Option<Stmt> = match keyword {
            Keyword::If => Parser::if_statement,
            Keyword::While => |p| Some(Stmt::While(p.condition()?, p.statement()?)),
            Keyword::For => Parser::for_statement,
            Keyword::Print => Parser::print_statement,
            Keyword::Next => |p| p.expect(Sign::Semicolon).map(|()| Stmt::Next),
            Keyword::Exit => |p| Some(Stmt::Exit(p.value_or(Expr::Number(0))?)),
            Keyword::Return => |p| Some(Stmt::Return(p.value_or(Expr::Text(Rc::from(&[][..])))?)),
            Keyword::Delete => Parser::delete_statement,
            // The others begin an expression, or nothing.
            _ => return Some(Stmt::Expr(self.closed_expression()?)),
        };
        self.take()?;
        reads(self)
    }

    fn closed_expression(&mut self) -> Option<Expr> {
        let expr = self.expression()?;
        self.expect(Sign::Semicolon)?;
        Some(expr)
    }

    /// What stands before the semicolon, or this if nothing does.
    fn value_or(&mut self, missing: Expr) -> Option<Expr> {
        if self.accept(Sign::Semicolon) {
            Some(missing)
        } else {
            self.closed_expression()
        }
    }

    fn condition(&mut self) -> Option<Expr> {
        self.expect(Sign::OpenParen)?;
        let condition = self.expression()?;
        self.expect(Sign::CloseParen)?;
        Some(condition)
    }

    fn if_statement(&mut self) -> Option<Stmt> {
        let condition = self.condition()?;
        let then = self.statement()?;
        let otherwise = if self.accept_keyword(Keyword::Else) { self.statement()? } else { Vec::new() };
        Some(Stmt::If(condition, then, otherwise))
    }

    fn for_statement(&mut self) -> Option<Stmt> {
        self.expect(Sign::OpenParen)?;
        let variable = self.name()?;
        if !self.accept_keyword(Keyword::In) {
            return None;
        }
        let table = self.name()?;
        self.expect(Sign::CloseParen)?;
        Some(Stmt::ForKey(variable, table, self.statement()?))
    }

    fn print_statement(&mut self) -> Option<Stmt> {
        if self.accept(Sign::Semicolon) {
            return Some(Stmt::Print(Vec::new()));
        }
        let values = self.expressions()?;
        self.expect(Sign::Semicolon)?;
        Some(Stmt::Print(values))
    }

    fn delete_statement(&mut self) -> Option<Stmt> {
        let table = self.name()?;
        self.expect(Sign::OpenBracket)?;
        let key = self.expression()?;
        self.expect(Sign::CloseBracket)?;
        self.expect(Sign::Semicolon)?;
        Some(Stmt::Delete(table, key))
    }
}
