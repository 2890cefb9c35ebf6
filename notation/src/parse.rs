//! From text to a file: the fields. `expressions` reads the expressions.

use crate::arities::Arities;
use crate::ast::{Expr, Field, File, Space, Substitution};
use crate::encode;
use crate::lexer::{self, Lexeme, Position};
use crate::names::{self, Names};
use std::collections::HashMap;
use std::fmt;

/// Why a text is not a file, and where.
#[derive(Clone, Debug, PartialEq, Eq)]
pub struct ParseError {
    /// The line, from 1.
    pub line: usize,
    /// The column, from 1; each character is one column.
    pub column: usize,
    pub message: String,
}

impl ParseError {
    pub(crate) fn new(place: Position, message: impl Into<String>) -> ParseError {
        ParseError {
            line: place.line,
            column: place.column,
            message: message.into(),
        }
    }
}

impl fmt::Display for ParseError {
    fn fmt(&self, f: &mut fmt::Formatter<'_>) -> fmt::Result {
        let ParseError {
            line,
            column,
            message,
        } = self;
        write!(f, "line {line}, column {column}: {message}")
    }
}

impl std::error::Error for ParseError {}

/// A parsed text.
#[derive(Clone, Debug, PartialEq, Eq)]
pub struct Parsed {
    pub file: File,
    /// For each field, where its text begins: the place of a refusal in the text.
    pub places: Vec<Position>,
    /// Where the text ends: the place of a refusal after the last field.
    pub end: Position,
}

/// Reads a text.
pub fn parse(text: &str) -> Result<File, ParseError> {
    parse_with_places(text).map(|parsed| parsed.file)
}

/// Reads an expression by itself, over parameters of these names. Its names are those of a file;
/// `n12` is number 12, whether the file has it or not.
pub fn parse_expression<'t>(
    text: &'t str,
    names: &Names,
    parameters: &[&'t str],
) -> Result<Expr, ParseError> {
    let mut parser = Parser::new(text)?;
    parser.numbers = Numbers::Given;
    parser.names = names.clone();
    let mut scope = Scope::default();
    let start = parser.place();
    for (number, &word) in parameters.iter().enumerate() {
        if !names::identifier(word) {
            let message = format!("`{word}` cannot be the name of a parameter");
            return Err(ParseError::new(start, message));
        }
        if names.number(Space::Operators, word).is_some() {
            let message = format!("the parameter `{word}` has the name of an operator");
            return Err(ParseError::new(start, message));
        }
        let count = scope.reserve();
        parser.open_local(&mut scope, word, start, Local::Parameter(number), count)?;
    }
    let expression = parser.expression(&mut scope)?;
    if parser.peek() != Lexeme::End {
        let found = parser.peek();
        return parser.fail(format!(
            "expected an operator that goes on with the expression, or its end, found {found}"
        ));
    }
    Ok(expression)
}

/// Reads a text, and tells where each field stands in it.
pub fn parse_with_places(text: &str) -> Result<Parsed, ParseError> {
    let mut parser = Parser::new(text)?;
    parser.header()?;
    while parser.peek() != Lexeme::End {
        parser.item()?;
    }
    let end = parser.place();
    let (file, places) = parser.finish();
    Ok(Parsed { file, places, end })
}

/// A number of arguments in words.
pub(crate) fn counted(arguments: usize) -> String {
    match arguments {
        0 => "no arguments".to_string(),
        1 => "1 argument".to_string(),
        count => format!("{count} arguments"),
    }
}

/// A parameter or a bound variable in scope.
#[derive(Clone, Copy)]
pub(crate) enum Local {
    Parameter(usize),
    /// The number of binders around its binder.
    Bound(usize),
}

/// The local names of a field.
#[derive(Default)]
pub(crate) struct Scope<'t> {
    pub visible: HashMap<&'t str, Local>,
    /// The number of binders open.
    pub depth: usize,
    /// All local names of the field so far, each with its first place.
    pub locals: HashMap<&'t str, Position>,
    /// All operator names used in the field so far, each with its first place.
    pub operators: HashMap<&'t str, Position>,
    /// The number of local names of the field so far.
    count: usize,
}

impl Scope<'_> {
    /// The place of the next local name among the field's local names.
    pub fn reserve(&mut self) -> usize {
        self.count += 1;
        self.count - 1
    }
}

/// Where the numbers of names come from.
#[derive(Clone, Copy, PartialEq, Eq)]
enum Numbers {
    /// They are counted in the order of first appearance.
    Counted,
    /// The text has a NAMES header.
    Header,
    /// The names are those of a file.
    Given,
}

pub(crate) struct Parser<'t> {
    lexemes: Vec<(Lexeme<'t>, Position)>,
    at: usize,
    numbers: Numbers,
    names: Names,
    fields: Vec<Field>,
    places: Vec<Position>,
    /// The names that the module has added so far.
    declared: HashMap<&'t str, Position>,
    arities: Arities,
    /// The next number of each space, where they are counted.
    next: [u32; 2],
}

impl<'t> Parser<'t> {
    fn new(text: &'t str) -> Result<Parser<'t>, ParseError> {
        Ok(Parser {
            lexemes: lexer::lexemes(text)?,
            at: 0,
            numbers: Numbers::Counted,
            names: Names::new(),
            fields: Vec::new(),
            places: Vec::new(),
            declared: HashMap::new(),
            arities: Arities::default(),
            next: [1, 1],
        })
    }

    pub fn peek(&self) -> Lexeme<'t> {
        self.lexemes[self.at].0
    }

    pub fn place(&self) -> Position {
        self.lexemes[self.at].1
    }

    /// Goes on to the next word; the end is never passed.
    pub fn advance(&mut self) -> (Lexeme<'t>, Position) {
        let taken = self.lexemes[self.at];
        if self.at + 1 < self.lexemes.len() {
            self.at += 1;
        }
        taken
    }

    pub fn is(&self, sign: &'static str) -> bool {
        self.peek() == Lexeme::Sign(sign)
    }

    /// Takes the sign if it is next.
    pub fn accept(&mut self, sign: &'static str) -> bool {
        let there = self.is(sign);
        if there {
            self.advance();
        }
        there
    }

    pub fn fail<T>(&self, message: impl Into<String>) -> Result<T, ParseError> {
        Err(ParseError::new(self.place(), message))
    }

    pub fn expect(&mut self, sign: &'static str, why: &str) -> Result<(), ParseError> {
        if self.accept(sign) {
            return Ok(());
        }
        let found = self.peek();
        self.fail(format!("expected `{sign}` {why}, found {found}"))
    }

    /// A name as it is spelled.
    pub fn identifier(&mut self, what: &str) -> Result<(&'t str, Position), ParseError> {
        match self.peek() {
            Lexeme::Name(word) => {
                let (_, place) = self.advance();
                Ok((word, place))
            }
            Lexeme::Word(word) => {
                self.fail(format!("expected {what}, but `{word}` is a reserved word"))
            }
            found => self.fail(format!("expected {what}, found {found}")),
        }
    }

    /// The number of a name.
    pub fn resolve(
        &mut self,
        space: Space,
        word: &str,
        place: Position,
    ) -> Result<u16, ParseError> {
        if let Some(number) = self.names.number(space, word) {
            return Ok(number);
        }
        let unknown = match self.numbers {
            Numbers::Counted => None,
            Numbers::Header => Some("has no number in the NAMES header; add it there"),
            Numbers::Given => Some("is not a name of the file"),
        };
        if let Some(why) = unknown {
            return names::plain_number(word)
                .ok_or_else(|| ParseError::new(place, format!("`{word}` {why}")));
        }
        let next = &mut self.next[space as usize];
        let number = u16::try_from(*next)
            .map_err(|_| ParseError::new(place, "a file has at most 65535 names of a kind"))?;
        *next += 1;
        self.names
            .set(space, number, word)
            .map_err(|fault| ParseError::new(place, format!("`{word}`: {fault}")))?;
        Ok(number)
    }

    /// A name that is not a local one: its number and its spelling.
    fn global(&mut self, space: Space, what: &str) -> Result<(u16, &'t str, Position), ParseError> {
        let (word, place) = self.identifier(what)?;
        Ok((self.resolve(space, word, place)?, word, place))
    }

    fn header(&mut self) -> Result<(), ParseError> {
        if self.peek() != Lexeme::Word("NAMES") {
            return Ok(());
        }
        self.numbers = Numbers::Header;
        self.advance();
        for (word, space) in [("MODULES", Space::Modules), ("OPERATORS", Space::Operators)] {
            if self.peek() != Lexeme::Word(word) {
                continue;
            }
            self.advance();
            loop {
                let (name, place) = self.identifier("a name")?;
                self.expect("=", "and the number of the name")?;
                let at = self.place();
                let number = self.number(1, 65535, "the number of a name")? as u16;
                if names::plain_number(name).is_some_and(|plain| plain != number) {
                    return Err(ParseError::new(
                        place,
                        format!("`{name}` always has the number in it under a NAMES header"),
                    ));
                }
                self.names
                    .set(space, number, name)
                    .map_err(|fault| match fault {
                        names::NameFault::NumberTaken => ParseError::new(
                            at,
                            format!("{number} is already the number of another name"),
                        ),
                        _ => ParseError::new(place, format!("`{name}` is already in the header")),
                    })?;
                if !self.accept(",") {
                    break;
                }
            }
        }
        Ok(())
    }

    /// A decimal number within bounds.
    pub fn number(&mut self, least: u32, most: u32, what: &str) -> Result<u32, ParseError> {
        if let Lexeme::Number(digits) = self.peek() {
            return match digits.parse::<u32>() {
                Ok(number) if (least..=most).contains(&number) => {
                    self.advance();
                    Ok(number)
                }
                _ => self.fail(format!("{what} is {least} to {most}")),
            };
        }
        let found = self.peek();
        self.fail(format!("expected {what}, found {found}"))
    }

    /// Adds a field; a field that has no bytes is an error at its place.
    fn add(&mut self, field: Field, place: Position) -> Result<(), ParseError> {
        if let Some(fault) = encode::fault(&field) {
            return Err(ParseError::new(
                place,
                format!("this cannot be a field of a file: {fault}"),
            ));
        }
        self.arities.add(&field);
        if matches!(field, Field::Module { .. } | Field::End) {
            self.declared.clear();
        }
        self.fields.push(field);
        self.places.push(place);
        Ok(())
    }

    /// Notes a name that the module adds.
    fn declare(&mut self, word: &'t str, place: Position) {
        self.declared.entry(word).or_insert(place);
    }

    fn item(&mut self) -> Result<(), ParseError> {
        let place = self.place();
        match self.peek() {
            Lexeme::Dashes => self.module(place),
            Lexeme::Bar => {
                self.advance();
                self.add(Field::End, place)
            }
            Lexeme::Word("EXTENDS") => {
                self.advance();
                let mut modules = Vec::new();
                loop {
                    modules.push(self.global(Space::Modules, "the name of a module")?.0);
                    if !self.accept(",") {
                        break;
                    }
                }
                self.add(Field::Extends { modules }, place)
            }
            Lexeme::Word("CONSTANT" | "CONSTANTS") => self.constants(),
            Lexeme::Word("VARIABLE" | "VARIABLES") => {
                self.advance();
                let mut place = place;
                loop {
                    let (name, word, at) =
                        self.global(Space::Operators, "the name of a variable")?;
                    self.add(Field::Variable { name }, place)?;
                    self.declare(word, at);
                    if !self.accept(",") {
                        return Ok(());
                    }
                    place = self.place();
                }
            }
            Lexeme::Word("ASSUME") => {
                self.advance();
                let formula = self.expression(&mut Scope::default())?;
                self.add(Field::Assume { formula }, place)
            }
            Lexeme::Word("THEOREM") => {
                self.advance();
                let formula = self.expression(&mut Scope::default())?;
                self.add(Field::Theorem { formula }, place)
            }
            Lexeme::Word("INSTANCE") => self.instance(0, 0, &mut Scope::default(), place),
            Lexeme::Name(_) => self.definition(place),
            Lexeme::Word("NAMES") => self.fail("NAMES stands only at the top of the text"),
            Lexeme::Word(
                word @ ("MODULE" | "MODULES" | "OPERATORS" | "WITH" | "ENABLED" | "UNCHANGED"
                | "CHOOSE"),
            ) => self.fail(match word {
                "MODULE" => "a module begins with `---- MODULE Name ----`".to_string(),
                _ => format!("`{word}` cannot begin a field"),
            }),
            Lexeme::Word(word) => self.fail(format!(
                "`{word}` is a word of TLA+ that this notation leaves out"
            )),
            Lexeme::Sign("/\\" | "\\/") => self.fail(
                "lists with a leading `/\\` or `\\/` are left out; write `a /\\ b` with parentheses where needed",
            ),
            found => self.fail(format!(
                "expected a field (a definition, CONSTANT, VARIABLE, INSTANCE, ASSUME, THEOREM, `====`, ..) or an operator that goes on with the expression before it, found {found}"
            )),
        }
    }

    fn module(&mut self, place: Position) -> Result<(), ParseError> {
        self.advance();
        if self.peek() != Lexeme::Word("MODULE") {
            // A line of dashes by itself only divides the text.
            return Ok(());
        }
        self.advance();
        let (name, _, _) = self.global(Space::Modules, "the name of a module")?;
        if self.peek() != Lexeme::Dashes {
            let found = self.peek();
            return self.fail(format!(
                "expected `----` after the name of the module, found {found}"
            ));
        }
        self.advance();
        self.add(Field::Module { name }, place)
    }

    fn constants(&mut self) -> Result<(), ParseError> {
        let (_, mut place) = self.advance();
        loop {
            let (name, word, at) = self.global(Space::Operators, "the name of a constant")?;
            let mut arguments = 0u8;
            if self.accept("(") {
                loop {
                    if self.peek() != Lexeme::Blank {
                        let found = self.peek();
                        return self.fail(format!(
                            "expected `_` for each argument of the constant, found {found}"
                        ));
                    }
                    arguments = match arguments.checked_add(1) {
                        Some(more) => more,
                        None => return self.fail("a constant has at most 255 arguments"),
                    };
                    self.advance();
                    if !self.accept(",") {
                        break;
                    }
                }
                self.expect(")", "after the arguments of the constant")?;
            }
            self.add(Field::Constant { name, arguments }, place)?;
            self.declare(word, at);
            if !self.accept(",") {
                return Ok(());
            }
            place = self.place();
        }
    }

    /// `F(p, q) == ..`, a definition or a named instance.
    fn definition(&mut self, place: Position) -> Result<(), ParseError> {
        let (name, word, at) = self.global(Space::Operators, "a name")?;
        let mut scope = Scope::default();
        scope.operators.insert(word, at);
        let parameters = self.parameters(&mut scope, 0)?.len();
        if !self.is("==") {
            let found = self.peek();
            return self.fail(format!(
                "expected `==` to define `{word}`, or an operator before `{word}` to go on with the expression there, found {found}"
            ));
        }
        self.advance();
        let parameters = u8::try_from(parameters)
            .map_err(|_| ParseError::new(place, "an operator has at most 255 parameters"))?;
        if self.peek() == Lexeme::Word("INSTANCE") {
            self.instance(name, parameters, &mut scope, place)?;
        } else {
            let body = self.expression(&mut scope)?;
            let field = Field::Definition {
                name,
                parameters,
                body,
            };
            self.add(field, place)?;
        }
        self.declare(word, at);
        Ok(())
    }

    /// Parameters in parentheses, numbered from `first`; none if there are no parentheses.
    fn parameters(
        &mut self,
        scope: &mut Scope<'t>,
        first: usize,
    ) -> Result<Vec<&'t str>, ParseError> {
        let mut all = Vec::new();
        if self.accept("(") {
            loop {
                if self.peek() == Lexeme::Blank {
                    return self.fail("a parameter needs a name here");
                }
                let (word, place) = self.identifier("the name of a parameter")?;
                let count = scope.reserve();
                let local = Local::Parameter(first + all.len());
                self.open_local(scope, word, place, local, count)?;
                all.push(word);
                if self.is("(") {
                    return self.fail(
                        "operators as arguments are left out: a parameter takes no arguments",
                    );
                }
                if !self.accept(",") {
                    break;
                }
            }
            self.expect(")", "after the parameters")?;
        }
        Ok(all)
    }

    /// Brings a local name into scope; `count` is its place among the field's local names.
    pub fn open_local(
        &mut self,
        scope: &mut Scope<'t>,
        word: &'t str,
        place: Position,
        local: Local,
        count: usize,
    ) -> Result<(), ParseError> {
        let fault = |message: String| Err(ParseError::new(place, message));
        if self.numbers != Numbers::Counted && names::plain_number(word).is_some() {
            return fault(format!(
                "`{word}` stands for the name of that number, and cannot be a local one"
            ));
        }
        if scope.visible.contains_key(word) {
            let first = scope.locals[word];
            return fault(format!("`{word}` already has a meaning here ({first})"));
        }
        if let Some(first) = scope.operators.get(word) {
            return fault(format!(
                "`{word}` is already an operator in this field ({first})"
            ));
        }
        if let Some(first) = self.declared.get(word) {
            return fault(format!(
                "`{word}` is already declared or defined in this module ({first})"
            ));
        }
        scope.locals.entry(word).or_insert(place);
        scope.visible.insert(word, local);
        if !names::invented(word) {
            self.names.set_local(self.fields.len(), count, word);
        }
        Ok(())
    }

    /// `INSTANCE M WITH c <- e, K(a, b) <- e`.
    fn instance(
        &mut self,
        name: u16,
        parameters: u8,
        scope: &mut Scope<'t>,
        place: Position,
    ) -> Result<(), ParseError> {
        self.advance();
        let (module, spelled, _) = self.global(Space::Modules, "the name of a module")?;
        let mut substitutions = Vec::new();
        if self.peek() == Lexeme::Word("WITH") {
            self.advance();
            loop {
                substitutions.push(self.substitution(module, spelled, parameters, scope)?);
                if !self.accept(",") {
                    break;
                }
            }
        }
        let field = Field::Instance {
            name,
            parameters,
            module,
            substitutions,
        };
        self.add(field, place)
    }

    fn substitution(
        &mut self,
        module: u16,
        spelled: &str,
        parameters: u8,
        scope: &mut Scope<'t>,
    ) -> Result<Substitution, ParseError> {
        let (name, word, place) = self.global(Space::Operators, "the name to be replaced")?;
        let own = self.parameters(scope, usize::from(parameters))?;
        let declared = self.arities.of(module, name);
        let wanted = usize::from(declared.unwrap_or(0));
        if own.len() != wanted {
            let message = if declared.is_some() {
                let (wanted, named) = (counted(wanted), own.len());
                format!("`{word}` of `{spelled}` takes {wanted}, but {named} are named here; each needs a name, as in `K(a, b) <- ..`")
            } else if self.arities.ended(module) {
                format!("`{word}` is not declared in `{spelled}`, so it takes no arguments here")
            } else {
                format!(
                    "no module `{spelled}` ended before this, so `{word}` takes no arguments here"
                )
            };
            return Err(ParseError::new(place, message));
        }
        self.expect("<-", "and what replaces the name")?;
        let expression: Expr = self.expression(scope)?;
        for word in own {
            scope.visible.remove(word);
        }
        Ok(Substitution { name, expression })
    }

    /// Without a header, numbers names in the order in which the bytes have them.
    fn finish(mut self) -> (File, Vec<Position>) {
        if self.numbers == Numbers::Counted {
            let mut order: [HashMap<u16, u16>; 2] = Default::default();
            for field in &mut self.fields {
                field.map_names(&mut |space, name| {
                    let order = &mut order[space as usize];
                    let next = order.len() + 1;
                    *order.entry(name).or_insert(next as u16)
                });
            }
            self.names
                .renumber(|space, name| order[space as usize].get(&name).copied());
        }
        let file = File {
            fields: self.fields,
            names: self.names,
        };
        (file, self.places)
    }
}
