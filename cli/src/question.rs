//! A query as it is given: a module, an expression, its parameters, and their levels if it is for a
//! level.

use crate::args::Form;
use crate::causes::LEVELS;
use crate::diagnostics::{self, Colors};
use crate::input::Input;
use crate::outline::Outline;
use crate::probe;
use crate::source::{self, Source};
use crate::Misuse;
use notation::{DecodeError, Expr, Field, File, Names, Space};

/// What an expression is called in what is printed.
pub const NAME: &str = "the expression";

/// A parameter with the level given for it; 0 where levels do not matter.
pub struct Parameter {
    pub name: String,
    pub level: u8,
}

pub struct Question {
    pub module: u16,
    pub parameters: Vec<Parameter>,
    pub bytes: Vec<u8>,
    /// What the bytes hold.
    pub expression: Result<Expr, DecodeError>,
    /// As it was given, or as the notation writes it; empty for bytes that hold no expression.
    pub text: String,
}

/// An expression as it is given.
#[derive(Clone, Copy)]
pub enum Given<'g> {
    Text(&'g str),
    /// Bytes in hexadecimal.
    Bytes(&'g str),
}

impl<'g> Given<'g> {
    pub fn new(expression: &'g str, hex: bool) -> Given<'g> {
        match hex {
            true => Given::Bytes(expression),
            false => Given::Text(expression),
        }
    }
}

impl Question {
    pub fn new(
        input: &Input,
        module: &str,
        given: Given,
        parameters: Vec<Parameter>,
        colors: Colors,
    ) -> Result<Question, Misuse> {
        let names = &input.file.names;
        let module = named_module(input, module)?;
        let words: Vec<&str> = parameters.iter().map(|each| each.name.as_str()).collect();
        let (bytes, text) = match given {
            Given::Text(text) => match notation::parse_expression(text, names, &words) {
                Ok(expression) => (expression.encode(), text.to_string()),
                Err(fault) => {
                    let at = source::offset_of(text, fault.line, fault.column);
                    diagnostics::not_a_text(NAME, text, at, &fault.message, colors)?;
                    return Err(Misuse::Told(format!("{NAME}: {fault}")));
                }
            },
            Given::Bytes(digits) => {
                let bytes = hexadecimal(digits)?;
                let written =
                    Expr::decode(&bytes).map(|expression| written(&expression, names, &parameters));
                (bytes, written.unwrap_or_default())
            }
        };
        Ok(Question {
            module,
            parameters,
            expression: Expr::decode(&bytes),
            bytes,
            text,
        })
    }

    pub fn levels(&self) -> Vec<u8> {
        self.parameters.iter().map(|each| each.level).collect()
    }

    /// The fields of the file up to the module's end, and then this expression as a definition:
    /// so that what is wrong in it can be told as of a field. And the place of that field.
    pub fn as_field(&self, input: &Input, outline: &Outline) -> Option<(Input, usize)> {
        let place = outline.ended(self.module)?.last?;
        let body = self.expression.clone().ok()?;
        let mut fields = input.file.fields[..place].to_vec();
        let name = probe::unused(&input.file.fields, &body)?;
        fields.push(Field::Definition {
            name,
            parameters: u8::try_from(self.parameters.len()).ok()?,
            body,
        });
        let plain = File {
            fields,
            names: input.file.names.clone(),
        };
        let asked = Input {
            name: NAME.to_string(),
            called: NAME.to_string(),
            given: true,
            form: Form::Text,
            bytes: Vec::new(),
            offsets: Vec::new(),
            file: self.spelled(&plain, name).unwrap_or(plain),
            fault: None,
            source: Source::of_field(self.text.clone(), place),
        };
        Some((asked, place))
    }

    /// A file that ends with this expression as a definition, with the spellings that the
    /// expression's text has for parameters and bound variables: they are read from a text of it.
    fn spelled(&self, file: &File, name: u16) -> Option<File> {
        let mut word = "Asked".to_string();
        while file.names.number(Space::Operators, &word).is_some() {
            word.push('_');
        }
        let mut named = file.clone();
        named.names.set(Space::Operators, name, &word).ok()?;
        let text = notation::print(&named);
        let (before, _) = text.trim_end().rsplit_once('\n')?;
        let words: Vec<&str> = self.parameters.iter().map(|each| &*each.name).collect();
        let parameters = match words.is_empty() {
            true => String::new(),
            false => format!("({})", words.join(", ")),
        };
        let text = format!("{before}\n{word}{parameters} == {}\n", self.text);
        let read = notation::parse(&text).ok()?;
        (read.fields == file.fields).then_some(read)
    }
}

/// An expression as the notation writes it, over parameters of these names.
pub fn written(expression: &Expr, names: &Names, parameters: &[Parameter]) -> String {
    let words: Vec<String> = parameters.iter().map(|each| each.name.clone()).collect();
    notation::print_expression_over(expression, names, &words)
}

/// The number of a module: of its spelling, or of `n12`, or as it is.
fn named_module(input: &Input, word: &str) -> Result<u16, Misuse> {
    let spelled = input.file.names.number(Space::Modules, word);
    let number = || word.strip_prefix('n').unwrap_or(word).parse().ok();
    spelled.or_else(number).ok_or_else(|| {
        let modules = input.file.fields.iter().filter_map(|field| match field {
            Field::Module { name } => Some(input.module(*name)),
            _ => None,
        });
        let modules: Vec<String> = modules.collect();
        let all = match modules.is_empty() {
            true => "it has none".to_string(),
            false => format!("it has {}", modules.join(", ")),
        };
        Misuse::Message(format!("{}: no module is called {word}; {all}", input.name))
    })
}

/// Parameters by their names alone.
pub fn named(words: &[String]) -> Vec<Parameter> {
    let each = words.iter().map(|word| Parameter {
        name: word.trim().to_string(),
        level: 0,
    });
    each.collect()
}

/// `NAME=LEVEL`, or a level for a parameter that is called by its number.
pub fn levelled(names: &Names, levels: &[String]) -> Result<Vec<Parameter>, Misuse> {
    let each = levels.iter().enumerate().map(|(place, word)| {
        let (name, level) = match word.split_once('=') {
            Some((name, level)) => (name.to_string(), level),
            None => (invented(names, place), word.as_str()),
        };
        let level = given_level(word, level)?;
        Ok(Parameter { name, level })
    });
    each.collect()
}

/// A level as a number or a word.
fn given_level(word: &str, level: &str) -> Result<u8, Misuse> {
    let book = LEVELS.iter().take(4).position(|each| *each == level);
    let level = book.map(|level| level as u8).or_else(|| level.parse().ok());
    level.ok_or_else(|| {
        Misuse::Message(format!(
            "{word} is not a level: 0 to 4, constant, state, transition or temporal, or NAME=LEVEL"
        ))
    })
}

/// A level for each parameter of a definition: `NAME=LEVEL`, or a level alone for the parameter in
/// its place; 0 where none is given.
pub fn levels_of(
    written: &str,
    parameters: &[String],
    words: &[String],
) -> Result<Vec<u8>, Misuse> {
    let misuse = |message: String| Err(Misuse::Message(format!("{written} {message}")));
    let mut levels = vec![None; parameters.len()];
    for (turn, word) in words.iter().enumerate() {
        let (place, level) = match word.split_once('=') {
            None => (turn, word.as_str()),
            Some((name, level)) => {
                let called = parameters.iter().enumerate();
                let called = called.filter(|(_, each)| *each == name);
                let places: Vec<usize> = called.map(|(place, _)| place).collect();
                match places[..] {
                    [place] => (place, level),
                    [] => return misuse(format!("has no parameter {name}")),
                    _ => return misuse(format!("has several parameters {name}: give all in turn")),
                }
            }
        };
        let count = parameters.len();
        let plural = if count == 1 { "" } else { "s" };
        match levels.get_mut(place) {
            None => {
                return misuse(format!(
                    "has {count} parameter{plural}, and more levels are given"
                ));
            }
            Some(Some(_)) => {
                let name = &parameters[place];
                return misuse(format!(
                    "has one parameter {name}, and two levels are given for it"
                ));
            }
            Some(none) => match given_level(word, level)? {
                level @ 0..=4 => *none = Some(level),
                level => {
                    let name = &parameters[place];
                    return misuse(format!("cannot have {name} at {level}: levels are 0 to 4"));
                }
            },
        }
    }
    Ok(levels.into_iter().map(|level| level.unwrap_or(0)).collect())
}

fn invented(names: &Names, place: usize) -> String {
    let mut name = format!("p{place}");
    while names.number(Space::Operators, &name).is_some() {
        name.push('_');
    }
    name
}

/// Bytes of two digits each, with or without spaces between them.
fn hexadecimal(digits: &str) -> Result<Vec<u8>, Misuse> {
    let misuse = || Misuse::Message(format!("{digits} is not bytes in hexadecimal"));
    let digits: Vec<u8> = digits
        .chars()
        .filter(|c| !c.is_whitespace())
        .map(|c| c.to_digit(16).map(|digit| digit as u8))
        .collect::<Option<_>>()
        .ok_or_else(misuse)?;
    if digits.len() % 2 == 1 {
        return Err(misuse());
    }
    Ok(digits
        .chunks(2)
        .map(|pair| 16 * pair[0] + pair[1])
        .collect())
}
