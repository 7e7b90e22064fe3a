//! One line of a text, token by token: names, numbers, signs, and the sums and constraints made of them.

use crate::fields::tag::*;
use crate::{names, words};

/// What was expected, and what was found.
pub type Wrong = String;

#[derive(Clone, PartialEq)]
enum Token {
    Number(i64),
    Name(String),
    Sign(&'static str),
}

const SIGNS: [&str; 11] = ["<=", ">=", "!=", "<", ">", "=", "+", "-", "*", ":", ";"];

pub struct Line {
    tokens: Vec<Token>,
    next: usize,
}

impl Line {
    pub fn new(line: &str) -> Result<Line, Wrong> {
        let mut tokens = Vec::new();
        let plain = line.replace('≤', "<=").replace('≥', ">=");
        let plain = plain.replace('≠', "!=").replace('−', "-");
        let mut rest = plain.trim_start();
        while let Some(first) = rest.chars().next() {
            let length = |part: fn(char) -> bool| rest.find(|c| !part(c)).unwrap_or(rest.len());
            let size = if first.is_ascii_digit() {
                let size = length(|c| c.is_ascii_digit());
                let number = rest[..size].parse().ok().filter(|n| *n <= 1 << 32);
                let digits = words::cut(&rest[..size], 40);
                let number = number.ok_or(format!("expected a smaller number, found {digits}"))?;
                tokens.push(Token::Number(number));
                size
            } else if names::starts(first) {
                let size = length(names::continues);
                tokens.push(Token::Name(rest[..size].into()));
                size
            } else {
                let sign = SIGNS.into_iter().find(|sign| rest.starts_with(sign));
                let wrong = || format!("expected a name, a number or a sign, found {first:?}");
                let sign = sign.ok_or_else(wrong)?;
                tokens.push(Token::Sign(sign));
                sign.len()
            };
            rest = rest[size..].trim_start();
        }
        Ok(Line { tokens, next: 0 })
    }

    /// The error that something else was expected here.
    pub fn expected<T>(&self, what: &str) -> Result<T, Wrong> {
        let found = match self.tokens.get(self.next) {
            Some(Token::Number(number)) => format!("\"{number}\""),
            Some(Token::Name(name)) => format!("\"{}\"", words::cut(name, 40)),
            Some(Token::Sign(sign)) => format!("\"{sign}\""),
            None => "the end of the line".into(),
        };
        Err(format!("expected {what}, found {found}"))
    }

    /// Whether the second token is this sign.
    pub fn has_second(&self, sign: &'static str) -> bool {
        self.tokens.get(1) == Some(&Token::Sign(sign))
    }

    pub fn is_at_end(&self) -> bool {
        self.next >= self.tokens.len()
    }

    pub fn end(&self) -> Result<(), Wrong> {
        match self.is_at_end() {
            true => Ok(()),
            false => self.expected("the end of the line"),
        }
    }

    /// The word that stands here, or an empty one.
    pub fn peek(&self) -> &str {
        match self.tokens.get(self.next) {
            Some(Token::Name(name)) => name,
            _ => "",
        }
    }

    pub fn skip(&mut self) {
        self.next += 1;
    }

    /// Goes over a sign, if it stands here.
    pub fn skips(&mut self, sign: &'static str) -> bool {
        let found = self.tokens.get(self.next) == Some(&Token::Sign(sign));
        self.next += usize::from(found);
        found
    }

    pub fn word(&mut self, word: &str) -> Result<(), Wrong> {
        if self.peek() != word {
            return self.expected(&format!("\"{word}\""));
        }
        self.skip();
        Ok(())
    }

    pub fn name(&mut self, what: &str) -> Result<String, Wrong> {
        let name = self.peek().to_string();
        if !names::is_name(&name) {
            return self.expected(what);
        }
        self.skip();
        Ok(name)
    }

    /// A number without a sign, if one stands here.
    pub fn size(&mut self) -> Option<i64> {
        match self.tokens.get(self.next) {
            Some(Token::Number(size)) => {
                self.next += 1;
                Some(*size)
            }
            _ => None,
        }
    }

    pub fn number(&mut self, what: &str, least: i64, most: i64) -> Result<i64, Wrong> {
        let what = match least == most {
            true => format!("{what} {least}"),
            false => format!("{what} from {least} to {most}"),
        };
        let sign = if self.skips("-") { -1 } else { 1 };
        match self.size().map(|size| sign * size) {
            Some(number) if (least..=most).contains(&number) => Ok(number),
            Some(number) => Err(format!("expected {what}, found \"{number}\"")),
            None => self.expected(&what),
        }
    }

    /// A sum of registers, with multiples, and numbers.
    pub fn sum(&mut self, registers: &[String]) -> Result<Vec<i64>, Wrong> {
        let mut form = vec![0; registers.len() + 1];
        let mut sign = if self.skips("-") { -1 } else { 1 };
        loop {
            let size = self.size();
            let times = size.is_some() && self.skips("*");
            let register = registers.iter().position(|name| name == self.peek());
            let place = match register {
                Some(place) => {
                    self.skip();
                    place
                }
                None if times || !self.peek().is_empty() => return self.expected("a register"),
                None if size.is_none() => return self.expected("a register or a number"),
                None => registers.len(),
            };
            form[place] += sign * size.unwrap_or(1);
            sign = match (self.skips("+"), self.skips("-")) {
                (true, false) => 1,
                (false, true) => -1,
                (false, false) => return Ok(form),
                (true, true) => return Err("expected a term, found \"-\"".into()),
            };
        }
    }

    /// A constraint, as its tag and form.
    pub fn constraint(&mut self, registers: &[String]) -> Result<(u8, Vec<i64>), Wrong> {
        let left = self.sum(registers)?;
        let signs = ["<=", ">=", "<", ">", "=", "!="];
        let Some(sign) = signs.into_iter().find(|sign| self.skips(sign)) else {
            return self.expected("<=, >=, <, >, = or !=");
        };
        let right = self.sum(registers)?;
        let turned = sign.starts_with('>');
        let difference = |(x, y): (&i64, &i64)| if turned { y - x } else { x - y };
        let mut form: Vec<i64> = left.iter().zip(&right).map(difference).collect();
        form[registers.len()] += i64::from(sign == "<" || sign == ">");
        let tag = match sign {
            "=" => EQUALITY,
            "!=" => DISEQUALITY,
            _ => INEQUALITY,
        };
        Ok((tag, form))
    }
}
