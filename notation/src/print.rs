//! From a file to text.

use crate::arities::Arities;
use crate::ast::{Expr, Field, File, Space, Substitution, Token};
use crate::codes::{self, rank};
use crate::names::{self, Names};
use std::collections::HashSet;

/// Lines of names are broken before this width.
const WIDTH: usize = 76;

/// The text of a file. It parses to the same file.
///
/// A name without a spelling is written `n12` under a NAMES header, which is also written when
/// the numbers are not those of the names' first appearance. (One thing is lost: under a header
/// a spelling of the form `n12` for another number than 12. And if the fields of a parsed file
/// were changed by hand, a local spelling that no longer fits makes way for an invented one.)
pub fn print(file: &File) -> String {
    let mut printer = Printer::new(&file.names, !in_order(file));
    if printer.header {
        printer.header();
    }
    let mut number = 0;
    while number < file.fields.len() {
        let more = printer.field(file, number);
        for field in &file.fields[number..number + more] {
            printer.pass(field);
        }
        number += more;
    }
    printer.text
}

/// The text of a definition's body, as [`print`] writes it; `None` if the field is no definition.
pub fn print_body(file: &File, field: usize) -> Option<String> {
    let Some(
        definition @ Field::Definition {
            name,
            parameters,
            body,
        },
    ) = file.fields.get(field)
    else {
        return None;
    };
    let mut printer = Printer::new(&file.names, !in_order(file));
    for before in &file.fields[..field] {
        printer.pass(before);
    }
    let mut locals = printer.locals(field, definition);
    printer.defined(&mut locals, *name, *parameters);
    printer.text.clear();
    printer.expression(&mut locals, body);
    Some(printer.text)
}

/// The text of an expression alone, with invented names for its parameters and bound variables.
/// A name without a spelling is written `n12`.
pub fn print_expression(expression: &Expr, names: &Names, parameters: u8) -> String {
    let invented: Vec<String> = (0..parameters).map(|place| format!("p{place}")).collect();
    print_expression_over(expression, names, &invented)
}

/// The same with names for its parameters; one that means something in the expression already gets
/// `_` added.
pub fn print_expression_over(expression: &Expr, names: &Names, parameters: &[String]) -> String {
    let mut printer = Printer::new(names, true);
    let mut operators = HashSet::new();
    for token in expression.tokens() {
        match *token {
            Token::Name { name, .. } => {
                operators.insert(printer.name(Space::Operators, name));
            }
            Token::Instance { instance, name, .. } => {
                operators.insert(printer.name(Space::Operators, instance));
                operators.insert(printer.name(Space::Operators, name));
            }
            _ => {}
        }
    }
    let mut locals = Locals {
        field: usize::MAX,
        count: 0,
        operators,
        visible: HashSet::new(),
        parameters: Vec::new(),
        bound: Vec::new(),
    };
    for parameter in parameters {
        let mut name = parameter.clone();
        while locals.visible.contains(&name) || locals.operators.contains(&name) {
            name.push('_');
        }
        locals.visible.insert(name.clone());
        locals.parameters.push(name);
    }
    printer.expression(&mut locals, expression);
    printer.text
}

/// Whether every name has a spelling and numbers follow the order of first appearance, so that
/// the text needs no header.
fn in_order(file: &File) -> bool {
    let mut seen = [0u32; 2];
    let mut good = true;
    for field in &file.fields {
        field.for_each_name(|space, name| {
            let seen = &mut seen[space as usize];
            if u32::from(name) == *seen + 1 {
                *seen += 1;
            }
            good &= u32::from(name) <= *seen && file.names.spelling(space, name).is_some();
        });
    }
    good && [Space::Modules, Space::Operators]
        .iter()
        .all(|&space| file.names.count(space) == seen[space as usize] as usize)
}

/// The local names of the field that is being written.
struct Locals {
    field: usize,
    /// The number of local names so far.
    count: usize,
    /// The operators of the field, as they are written.
    operators: HashSet<String>,
    visible: HashSet<String>,
    parameters: Vec<String>,
    bound: Vec<String>,
}

struct Printer<'f> {
    names: &'f Names,
    header: bool,
    /// The names that the module has added so far, as they are written.
    declared: HashSet<String>,
    arities: Arities,
    text: String,
}

/// A piece of an expression that is still to be written.
enum Piece {
    Sign(&'static str),
    Word(String),
    /// The expression at a token, in parentheses if its rank is below the one given.
    Node(usize, u8),
    /// Brings the bound variable of the binder just written into scope.
    Open(String),
    /// Takes the innermost bound variable out of scope.
    Close,
}

impl<'f> Printer<'f> {
    fn new(names: &'f Names, header: bool) -> Printer<'f> {
        Printer {
            names,
            header,
            declared: HashSet::new(),
            arities: Arities::default(),
            text: String::new(),
        }
    }

    /// Notes what a field adds.
    fn pass(&mut self, field: &Field) {
        self.arities.add(field);
        if matches!(field, Field::Module { .. } | Field::End) {
            self.declared.clear();
        }
        if let Some(name) = field.adds() {
            let spelled = self.name(Space::Operators, name);
            self.declared.insert(spelled);
        }
    }

    /// The local names of a field before any is written.
    fn locals(&self, number: usize, field: &Field) -> Locals {
        let mut operators = HashSet::new();
        field.for_each_operator(|name| {
            operators.insert(self.name(Space::Operators, name));
        });
        Locals {
            field: number,
            count: 0,
            operators,
            visible: HashSet::new(),
            parameters: Vec::new(),
            bound: Vec::new(),
        }
    }

    /// The spelling of a name if it can be used, else `n12`.
    fn name(&self, space: Space, name: u16) -> String {
        match self.names.spelling(space, name) {
            Some(spelling) if !self.header || fits(spelling, name) => spelling.to_string(),
            _ => format!("n{name}"),
        }
    }

    fn header(&mut self) {
        self.text.push_str("NAMES\n");
        for (word, space) in [("MODULES", Space::Modules), ("OPERATORS", Space::Operators)] {
            let mut items = Vec::new();
            for (number, spelling) in self.names.all(space) {
                if fits(spelling, number) {
                    items.push(format!("{spelling} = {number}"));
                }
            }
            if !items.is_empty() {
                self.list(word, &items);
            }
        }
        self.text.push('\n');
    }

    /// A word and a list with commas, over as many lines as it takes.
    fn list(&mut self, word: &str, items: &[String]) {
        self.text.push_str(word);
        let mut width = word.len();
        for (number, item) in items.iter().enumerate() {
            if number > 0 {
                self.text.push(',');
                width += 1;
            }
            if number > 0 && width + 1 + item.len() > WIDTH {
                self.text.push_str("\n ");
                width = 1;
            }
            self.text.push(' ');
            self.text.push_str(item);
            width += 1 + item.len();
        }
        self.text.push('\n');
    }

    /// Writes a field, and with it those after it that share its line. Tells how many.
    fn field(&mut self, file: &File, number: usize) -> usize {
        let field = &file.fields[number];
        let alike = |field: &Field| match field {
            Field::Constant { name, arguments } => {
                let name = self.name(Space::Operators, *name);
                Some((3, format!("{name}{}", blanks(*arguments))))
            }
            Field::Variable { name } => Some((4, self.name(Space::Operators, *name))),
            _ => None,
        };
        if let Some((tag, _)) = alike(field) {
            let items: Vec<String> = file.fields[number..]
                .iter()
                .map_while(|field| alike(field).filter(|(other, _)| *other == tag))
                .map(|(_, item)| item)
                .collect();
            self.list(if tag == 3 { "CONSTANT" } else { "VARIABLE" }, &items);
            return items.len();
        }
        let mut locals = self.locals(number, field);
        match field {
            Field::Module { name } => {
                let name = self.name(Space::Modules, *name);
                self.text.push_str(&format!("---- MODULE {name} ----"));
            }
            Field::Extends { modules } => {
                let names: Vec<String> = modules
                    .iter()
                    .map(|&module| self.name(Space::Modules, module))
                    .collect();
                self.list("EXTENDS", &names);
                return 1;
            }
            Field::Constant { .. } | Field::Variable { .. } => {}
            Field::Definition {
                name,
                parameters,
                body,
            } => {
                self.defined(&mut locals, *name, *parameters);
                self.expression(&mut locals, body);
            }
            Field::Instance {
                name,
                parameters,
                module,
                substitutions,
            } => {
                if *name != 0 {
                    self.defined(&mut locals, *name, *parameters);
                }
                let called = self.name(Space::Modules, *module);
                self.text.push_str("INSTANCE ");
                self.text.push_str(&called);
                for (place, substitution) in substitutions.iter().enumerate() {
                    self.text
                        .push_str(if place == 0 { " WITH\n    " } else { ",\n    " });
                    self.substitution(&mut locals, *module, substitution);
                }
            }
            Field::End => self.text.push_str("====\n"),
            Field::Assume { formula } => {
                self.text.push_str("ASSUME ");
                self.expression(&mut locals, formula);
            }
            Field::Theorem { formula } => {
                self.text.push_str("THEOREM ");
                self.expression(&mut locals, formula);
            }
        }
        self.text.push('\n');
        1
    }

    /// `F(p0, p1) == `
    fn defined(&mut self, locals: &mut Locals, name: u16, parameters: u8) {
        let name = self.name(Space::Operators, name);
        self.text.push_str(&name);
        self.parameters(locals, usize::from(parameters));
        self.text.push_str(" == ");
    }

    /// `(p0, p1)`, or nothing if there are none.
    fn parameters(&mut self, locals: &mut Locals, count: usize) {
        for place in 0..count {
            self.text.push_str(if place == 0 { "(" } else { ", " });
            let name = self.open_parameter(locals);
            self.text.push_str(&name);
        }
        if count > 0 {
            self.text.push(')');
        }
    }

    fn open_parameter(&mut self, locals: &mut Locals) -> String {
        let name = self.local(locals, 'p', locals.parameters.len());
        locals.visible.insert(name.clone());
        locals.parameters.push(name.clone());
        name
    }

    fn substitution(&mut self, locals: &mut Locals, module: u16, substitution: &Substitution) {
        let name = self.name(Space::Operators, substitution.name);
        self.text.push_str(&name);
        let outer = locals.parameters.len();
        let own = self.arities.of(module, substitution.name).unwrap_or(0);
        self.parameters(locals, usize::from(own));
        self.text.push_str(" <- ");
        self.expression(locals, &substitution.expression);
        for name in locals.parameters.drain(outer..) {
            locals.visible.remove(&name);
        }
    }

    /// The next local name of the field: its spelling if that fits, else an invented one.
    fn local(&self, locals: &mut Locals, stem: char, number: usize) -> String {
        let place = locals.count;
        locals.count += 1;
        let free = |word: &str| {
            !locals.visible.contains(word)
                && !locals.operators.contains(word)
                && !self.declared.contains(word)
        };
        if let Some(spelling) = self.names.local(locals.field, place) {
            if free(spelling) && !(self.header && names::plain_number(spelling).is_some()) {
                return spelling.to_string();
            }
        }
        let mut word = format!("{stem}{number}");
        while !free(&word) {
            word.push('_');
        }
        word
    }

    fn expression(&mut self, locals: &mut Locals, expression: &Expr) {
        let arguments = expression.arguments();
        let mut pieces = vec![Piece::Node(0, rank::BINDER)];
        while let Some(piece) = pieces.pop() {
            match piece {
                Piece::Sign(sign) => self.text.push_str(sign),
                Piece::Word(word) => self.text.push_str(&word),
                Piece::Open(word) => {
                    locals.visible.insert(word.clone());
                    locals.bound.push(word);
                }
                Piece::Close => {
                    if let Some(word) = locals.bound.pop() {
                        locals.visible.remove(&word);
                    }
                }
                Piece::Node(at, least) => {
                    let token = expression.tokens()[at];
                    let within = rank_of(token) < least;
                    if within {
                        self.text.push('(');
                        pieces.push(Piece::Sign(")"));
                    }
                    let start = pieces.len();
                    self.pieces(locals, expression, at, &arguments[at], &mut pieces);
                    pieces[start..].reverse();
                }
            }
        }
    }

    /// Adds the pieces of the expression at a token, in the order in which they are written.
    fn pieces(
        &self,
        locals: &mut Locals,
        expression: &Expr,
        at: usize,
        arguments: &[usize],
        pieces: &mut Vec<Piece>,
    ) {
        let tokens = expression.tokens();
        let code = match tokens[at] {
            Token::Parameter(index) => {
                let name = locals.parameters.get(usize::from(index));
                let word = name.cloned().unwrap_or_else(|| format!("?p{index}"));
                return pieces.push(Piece::Word(word));
            }
            Token::Bound(index) => {
                let place = locals.bound.len().checked_sub(usize::from(index) + 1);
                let word = place.map(|place| locals.bound[place].clone());
                let word = word.unwrap_or_else(|| format!("?b{index}"));
                return pieces.push(Piece::Word(word));
            }
            Token::Literal(value) => return pieces.push(Piece::Word(value.to_string())),
            Token::Name { name, .. } => {
                let name = self.name(Space::Operators, name);
                return applied(name, arguments, pieces);
            }
            Token::Instance { instance, name, .. } => {
                let instance = self.name(Space::Operators, instance);
                let name = self.name(Space::Operators, name);
                return applied(format!("{instance}!{name}"), arguments, pieces);
            }
            Token::BuiltIn(code) => code,
        };
        let is = |place: usize, code: u8| tokens[arguments[place]] == Token::BuiltIn(code);
        if let Some((sign, own)) = codes::infix(code) {
            let left = match own {
                rank::JUNCTION if !is(0, code) => own + 1,
                rank::RELATION | rank::LEADS => own + 1,
                _ => own,
            };
            pieces.push(Piece::Node(arguments[0], left));
            pieces.push(Piece::Word(format!(" {sign} ")));
            pieces.push(Piece::Node(arguments[1], own + 1));
        } else if let Some(sign) = codes::prefix(code) {
            let inner = rank_of(tokens[arguments[0]]);
            let doubled = (code == codes::BOX && is(0, codes::SQUARE))
                || (code == codes::DIAMOND && is(0, codes::ANGLE));
            let least = match inner {
                rank::PREFIX => rank::PREFIX,
                _ if doubled => rank::ATOM + 1,
                _ => rank::ATOM,
            };
            pieces.push(Piece::Sign(sign));
            pieces.push(Piece::Node(arguments[0], least));
        } else if codes::binds(code) {
            self.binder(locals, code, arguments, pieces);
        } else {
            match code {
                codes::PRIME => {
                    let open = is(0, codes::SQUARE)
                        || is(0, codes::ANGLE)
                        || is(0, codes::WEAK)
                        || is(0, codes::STRONG);
                    let least = rank::ATOM + u8::from(open);
                    pieces.push(Piece::Node(arguments[0], least));
                    pieces.push(Piece::Sign("'"));
                }
                codes::SQUARE | codes::BOX_SQUARE | codes::ANGLE | codes::DIAMOND_ANGLE => {
                    let (open, close) = match code {
                        codes::SQUARE => ("[", "]_"),
                        codes::BOX_SQUARE => ("[][", "]_"),
                        codes::ANGLE => ("<<", ">>_"),
                        _ => ("<><<", ">>_"),
                    };
                    pieces.push(Piece::Sign(open));
                    pieces.push(Piece::Node(arguments[0], rank::BINDER));
                    pieces.push(Piece::Sign(close));
                    subscript(tokens, arguments[1], pieces);
                }
                codes::WEAK | codes::STRONG => {
                    let sign = if code == codes::WEAK { "WF_" } else { "SF_" };
                    pieces.push(Piece::Sign(sign));
                    subscript(tokens, arguments[0], pieces);
                    pieces.push(Piece::Sign("("));
                    pieces.push(Piece::Node(arguments[1], rank::BINDER));
                    pieces.push(Piece::Sign(")"));
                }
                _ => applied(format!("op{code}"), arguments, pieces),
            }
        }
    }

    fn binder(&self, locals: &mut Locals, code: u8, arguments: &[usize], pieces: &mut Vec<Piece>) {
        let word = self.local(locals, 'x', locals.bound.len());
        let sign = codes::binder(code);
        pieces.push(Piece::Word(format!("{sign} {word}")));
        if let [set, _] = *arguments {
            pieces.push(Piece::Sign(" \\in "));
            pieces.push(Piece::Node(set, rank::BINDER + 1));
        }
        pieces.push(Piece::Sign(" : "));
        pieces.push(Piece::Open(word));
        let body = arguments.last().copied().unwrap_or(0);
        pieces.push(Piece::Node(body, rank::BINDER));
        pieces.push(Piece::Close);
    }
}

/// Whether a spelling can stand in a header: `n12` is the number 12 there.
fn fits(spelling: &str, number: u16) -> bool {
    names::plain_number(spelling).is_none_or(|plain| plain == number)
}

fn blanks(arguments: u8) -> String {
    match arguments {
        0 => String::new(),
        count => format!("({})", vec!["_"; usize::from(count)].join(", ")),
    }
}

fn applied(word: String, arguments: &[usize], pieces: &mut Vec<Piece>) {
    pieces.push(Piece::Word(word));
    for (place, &argument) in arguments.iter().enumerate() {
        pieces.push(Piece::Sign(if place == 0 { "(" } else { ", " }));
        pieces.push(Piece::Node(argument, rank::BINDER));
    }
    if !arguments.is_empty() {
        pieces.push(Piece::Sign(")"));
    }
}

fn subscript(tokens: &[Token], at: usize, pieces: &mut Vec<Piece>) {
    let simple = match tokens[at] {
        Token::Parameter(_) | Token::Bound(_) | Token::Literal(_) => true,
        Token::Name { arguments, .. } => arguments == 0,
        _ => false,
    };
    let least = if simple { rank::BINDER } else { rank::ATOM + 1 };
    pieces.push(Piece::Node(at, least));
}

fn rank_of(token: Token) -> u8 {
    match token {
        Token::BuiltIn(codes::BOX_SQUARE | codes::DIAMOND_ANGLE) => rank::PREFIX,
        Token::BuiltIn(code) if codes::binds(code) => rank::BINDER,
        Token::BuiltIn(code) if codes::prefix(code).is_some() => rank::PREFIX,
        Token::BuiltIn(code) => codes::infix(code).map_or(rank::ATOM, |(_, rank)| rank),
        _ => rank::ATOM,
    }
}
