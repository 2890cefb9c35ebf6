//! From text to words and signs, each with its place.

use crate::names::{self, numbered};
use crate::parse::ParseError;
use std::fmt;

/// A place in a text: line and column, both counted from 1, a column being one character.
#[derive(Clone, Copy, Debug, PartialEq, Eq, PartialOrd, Ord, Hash)]
pub struct Position {
    pub line: usize,
    pub column: usize,
}

impl fmt::Display for Position {
    fn fmt(&self, f: &mut fmt::Formatter<'_>) -> fmt::Result {
        write!(f, "line {}, column {}", self.line, self.column)
    }
}

/// A word or sign.
#[derive(Clone, Copy, Debug, PartialEq, Eq)]
pub(crate) enum Lexeme<'t> {
    /// A name, not reserved.
    Name(&'t str),
    /// A reserved word.
    Word(&'t str),
    /// A decimal number.
    Number(&'t str),
    /// `op60`.
    BuiltIn(&'t str),
    /// `bind131`.
    Binder(&'t str),
    /// `?p3` or `?b5`: an index without a name.
    Raw(char, &'t str),
    /// `WF_` or `SF_`.
    Fairness(u8),
    /// Four or more dashes.
    Dashes,
    /// Four or more equal signs.
    Bar,
    /// `_` by itself.
    Blank,
    /// Any other sign, as it is written.
    Sign(&'static str),
    /// The end of the text.
    End,
}

impl fmt::Display for Lexeme<'_> {
    fn fmt(&self, f: &mut fmt::Formatter<'_>) -> fmt::Result {
        match self {
            Lexeme::Name(word) | Lexeme::Word(word) | Lexeme::Number(word) => {
                write!(f, "`{word}`")
            }
            Lexeme::BuiltIn(code) => write!(f, "`op{code}`"),
            Lexeme::Binder(code) => write!(f, "`bind{code}`"),
            Lexeme::Raw(kind, number) => write!(f, "`?{kind}{number}`"),
            Lexeme::Fairness(code) if *code == crate::codes::WEAK => write!(f, "`WF_`"),
            Lexeme::Fairness(_) => write!(f, "`SF_`"),
            Lexeme::Dashes => write!(f, "`----`"),
            Lexeme::Bar => write!(f, "`====`"),
            Lexeme::Blank => write!(f, "`_`"),
            Lexeme::Sign(sign) => write!(f, "`{sign}`"),
            Lexeme::End => write!(f, "the end of the text"),
        }
    }
}

/// Signs, longer ones before those they begin with.
const SIGNS: &[&str] = &[
    "-+->", "]_", ">>_", "[]", "<>", "<<", "<-", "~>", "/\\", "\\/", "[", "(", ")", ",", ":", "!",
    "'", "#", ">", "+", "*",
];

/// Signs that are spelled with a backslash and letters.
const SPELLED: &[&str] = &["\\EE", "\\AA", "\\E", "\\A", "\\in", "\\cdot"];

struct Lexer<'t> {
    rest: &'t str,
    place: Position,
}

/// The words and signs of a text, the last one being the end.
pub(crate) fn lexemes(text: &str) -> Result<Vec<(Lexeme<'_>, Position)>, ParseError> {
    let mut lexer = Lexer {
        rest: text,
        place: Position { line: 1, column: 1 },
    };
    let mut all = Vec::new();
    loop {
        lexer.skip()?;
        let place = lexer.place;
        let lexeme = lexer.next()?;
        all.push((lexeme, place));
        if lexeme == Lexeme::End {
            return Ok(all);
        }
    }
}

fn word_byte(byte: u8) -> bool {
    byte.is_ascii_alphanumeric() || byte == b'_'
}

impl<'t> Lexer<'t> {
    fn fail<T>(&self, message: impl Into<String>) -> Result<T, ParseError> {
        Err(ParseError::new(self.place, message))
    }

    fn take(&mut self, length: usize) -> &'t str {
        let (taken, rest) = self.rest.split_at(length);
        for character in taken.chars() {
            if character == '\n' {
                self.place.line += 1;
                self.place.column = 1;
            } else {
                self.place.column += 1;
            }
        }
        self.rest = rest;
        taken
    }

    /// Skips blanks and comments.
    fn skip(&mut self) -> Result<(), ParseError> {
        loop {
            let blank = self.rest.len() - self.rest.trim_start().len();
            if blank > 0 {
                self.take(blank);
            } else if self.rest.starts_with("\\*") {
                let line = self.rest.find('\n').unwrap_or(self.rest.len());
                self.take(line);
            } else if self.rest.starts_with("(*") {
                self.comment()?;
            } else {
                return Ok(());
            }
        }
    }

    /// Skips a comment in `(*` and `*)`; comments may be nested.
    fn comment(&mut self) -> Result<(), ParseError> {
        let start = self.place;
        let mut depth = 0usize;
        loop {
            if self.rest.starts_with("(*") {
                self.take(2);
                depth += 1;
            } else if self.rest.starts_with("*)") {
                self.take(2);
                depth -= 1;
                if depth == 0 {
                    return Ok(());
                }
            } else if let Some(character) = self.rest.chars().next() {
                self.take(character.len_utf8());
            } else {
                return Err(ParseError::new(
                    start,
                    "this comment is never closed with `*)`",
                ));
            }
        }
    }

    fn run(&self, wanted: impl Fn(u8) -> bool) -> usize {
        let bytes = self.rest.bytes();
        bytes.take_while(|&byte| wanted(byte)).count()
    }

    fn next(&mut self) -> Result<Lexeme<'t>, ParseError> {
        let Some(first) = self.rest.chars().next() else {
            return Ok(Lexeme::End);
        };
        if first.is_ascii_digit() {
            return self.number();
        }
        if first.is_ascii_alphabetic() || first == '_' {
            return self.word();
        }
        if first == '?' {
            return self.raw();
        }
        if first == '=' {
            return self.equals();
        }
        if first == '-' {
            let dashes = self.run(|byte| byte == b'-');
            if dashes >= 4 {
                self.take(dashes);
                return Ok(Lexeme::Dashes);
            }
        }
        if first == '\\' && !self.rest.starts_with("\\/") {
            return self.spelled();
        }
        if self.rest.starts_with(">>") && !self.rest.starts_with(">>_") {
            return self.fail("`>>` must be followed by `_` and a subscript, as in `<<A>>_v`");
        }
        for &sign in SIGNS {
            if self.rest.starts_with(sign) {
                self.take(sign.len());
                return Ok(Lexeme::Sign(sign));
            }
        }
        match first {
            ']' => self.fail("`]` must be followed by `_` and a subscript, as in `[A]_v`"),
            '<' => self.fail("`<` is not in this notation; write the greater one first, with `>`"),
            '-' => self.fail(
                "`-` is not in this notation; a built-in without a sign is written by its code, as in `op60(a, b)`",
            ),
            '{' | '}' | '"' | '.' | '@' | '|' | '&' | '%' | '^' | '$' | '/' | '~' => {
                self.fail(format!(
                    "`{first}` is not in this notation; a built-in without a sign is written by its code, as in `op16(a)` or `op60(a, b)`"
                ))
            }
            _ => self.fail(format!("the character `{first}` is not in this notation")),
        }
    }

    fn number(&mut self) -> Result<Lexeme<'t>, ParseError> {
        let digits = self.run(|byte| byte.is_ascii_digit());
        if self.run(word_byte) > digits {
            return self.fail("a name cannot begin with a digit");
        }
        Ok(Lexeme::Number(self.take(digits)))
    }

    fn word(&mut self) -> Result<Lexeme<'t>, ParseError> {
        for (start, code) in [("WF_", crate::codes::WEAK), ("SF_", crate::codes::STRONG)] {
            if self.rest.starts_with(start) {
                self.take(start.len());
                return Ok(Lexeme::Fairness(code));
            }
        }
        let length = self.run(word_byte);
        let word = &self.rest[..length];
        if word == "_" {
            self.take(length);
            return Ok(Lexeme::Blank);
        }
        let lexeme = if let Some(code) = numbered(word, "op") {
            Lexeme::BuiltIn(code)
        } else if let Some(code) = numbered(word, "bind") {
            Lexeme::Binder(code)
        } else if names::reserved(word) {
            Lexeme::Word(word)
        } else if names::identifier(word) {
            Lexeme::Name(word)
        } else {
            return self.fail(format!("`{word}` is not a name: a name has a letter"));
        };
        self.take(length);
        Ok(lexeme)
    }

    fn raw(&mut self) -> Result<Lexeme<'t>, ParseError> {
        let rest = &self.rest[1..];
        let kind = rest.chars().next().filter(|kind| "pb".contains(*kind));
        let digits = rest.get(1..).map_or(0, |rest| {
            rest.bytes().take_while(u8::is_ascii_digit).count()
        });
        match kind {
            Some(kind) if digits > 0 => {
                let taken = self.take(2 + digits);
                Ok(Lexeme::Raw(kind, &taken[2..]))
            }
            _ => self.fail(
                "after `?` comes `p` or `b` and an index: `?p3` is parameter 3, `?b0` the nearest bound variable",
            ),
        }
    }

    fn equals(&mut self) -> Result<Lexeme<'t>, ParseError> {
        let length = self.run(|byte| byte == b'=');
        let lexeme = match length {
            1 if self.rest.starts_with("=>") => {
                return self.fail(
                    "`=>` is not in this notation; a built-in without a sign is written by its code, as in `op60(a, b)`",
                );
            }
            1 => Lexeme::Sign("="),
            2 => Lexeme::Sign("=="),
            3 => return self.fail("`===` is neither `==` nor the `====` that ends a module"),
            _ => Lexeme::Bar,
        };
        self.take(length);
        Ok(lexeme)
    }

    fn spelled(&mut self) -> Result<Lexeme<'t>, ParseError> {
        let rest = &self.rest[1..];
        let length = 1 + rest.bytes().take_while(|&byte| word_byte(byte)).count();
        let word = &self.rest[..length];
        match SPELLED.iter().find(|&&sign| sign == word) {
            Some(&sign) => {
                self.take(length);
                Ok(Lexeme::Sign(sign))
            }
            None => self.fail(format!(
                "`{word}` is not in this notation; a built-in without a sign is written by its code, as in `op60(a, b)`"
            )),
        }
    }
}
