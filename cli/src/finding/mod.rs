//! A refusal in words: the field, and what is wrong with it.
//!
//! The archive has decided; here the facts are looked up that a designer wants to see. What
//! cannot be looked up, or asked of the archive, is left out.

mod asked;
mod levels;
mod limits;
mod mixing;
mod names;
mod writing;

pub use asked::{find_asked, find_level, no_definition, Told};

use crate::archive::Refusal;
use crate::causes::title;
use crate::input::Input;
use crate::outline::Outline;
use crate::question::Parameter;
use notation::Field;

/// A part of a field's text.
#[derive(Clone, Debug, PartialEq, Eq)]
pub enum Focus {
    Field,
    Word(String),
    /// A word after so many of the same.
    Nth(usize, String),
    Piece(String),
    Substitution {
        place: usize,
        count: usize,
    },
}

/// A place in the source, with what is to be said there.
#[derive(Clone, Debug, PartialEq, Eq)]
pub struct Mark {
    pub field: usize,
    pub focus: Focus,
    pub text: String,
}

/// A refusal in words.
#[derive(Clone, Debug, Default, PartialEq, Eq)]
pub struct Finding {
    pub message: String,
    pub mark: Option<Mark>,
    pub others: Vec<Mark>,
    pub notes: Vec<String>,
    /// The names that it speaks of, as they are written.
    pub names: Vec<String>,
}

impl Finding {
    fn new(message: impl Into<String>) -> Finding {
        Finding {
            message: message.into(),
            ..Finding::default()
        }
    }

    fn mark(mut self, field: usize, focus: Focus, text: impl Into<String>) -> Finding {
        self.mark = Some(Mark {
            field,
            focus,
            text: text.into(),
        });
        self
    }

    fn other(mut self, field: usize, focus: Focus, text: impl Into<String>) -> Finding {
        self.others.push(Mark {
            field,
            focus,
            text: text.into(),
        });
        self
    }

    /// The first place is marked, and those after it beside it.
    fn point(self, field: usize, focus: Focus, text: impl Into<String>) -> Finding {
        match self.mark {
            None => self.mark(field, focus, text),
            Some(_) => self.other(field, focus, text),
        }
    }

    fn note(mut self, note: impl Into<String>) -> Finding {
        self.notes.push(note.into());
        self
    }

    fn name(mut self, name: impl Into<String>) -> Finding {
        self.names.push(name.into());
        self
    }
}

/// The fields before a refused one, and the refused one.
struct Site<'i> {
    input: &'i Input,
    outline: Outline,
    before: &'i [Field],
    field: &'i Field,
    place: usize,
    /// The parameters of a query. Those of a file's field are taken at level 0.
    given: Option<&'i [Parameter]>,
}

/// Puts a refusal of a file into words.
pub fn find(input: &Input, refusal: Refusal) -> Finding {
    let place = refusal.place as usize;
    let fields = &input.file.fields;
    let found = match (refusal.number, fields.get(place)) {
        (2, _) => Some(size(input)),
        (3, _) => layout(input, place),
        (4, field) => Some(order(input, place, field)),
        (number, _) => Site::new(input, place).and_then(|site| site.find(number)),
    };
    let mut finding = found.unwrap_or_else(|| Finding::new(title(refusal.number)));
    if finding.mark.is_none() && place < fields.len() && refusal.number > 3 {
        finding = finding.mark(place, Focus::Field, "");
    }
    finding
}

impl<'i> Site<'i> {
    fn new(input: &'i Input, place: usize) -> Option<Site<'i>> {
        let field = input.file.fields.get(place)?;
        let before = &input.file.fields[..place];
        Some(Site {
            input,
            outline: Outline::of(before),
            before,
            field,
            place,
            given: None,
        })
    }

    fn find(&self, number: u32) -> Option<Finding> {
        match number {
            5 => self.limit(),
            6 => self.module_used(),
            7 => self.module_not_ended(),
            8 => self.name_taken(),
            9 => self.unknown(),
            10 => self.argument_count(),
            11 => self.substituted(),
            12 => self.not_level_correct(),
            13 => self.assume_level(),
            14 => self.substitute_level(),
            21 => self.mixed_substitutes(),
            16 => self.named_instance(),
            _ => None,
        }
    }

    fn operator(&self, name: u16) -> String {
        self.input.operator(name)
    }

    /// An operator or instance name as the word to look for in a field.
    fn word(&self, name: u16) -> Focus {
        Focus::Word(self.operator(name))
    }
}

fn size(input: &Input) -> Finding {
    match input.bytes.len() {
        0 => Finding::new("the file is empty"),
        length => Finding::new(format!(
            "the file has {length} bytes, and the limit is 32768"
        )),
    }
}

fn layout(input: &Input, place: usize) -> Option<Finding> {
    let fault = input.fault.filter(|fault| fault.field == place)?;
    let message = format!("byte {}: {}", fault.offset, fault.reason);
    let finding = Finding::new(message);
    if fault.offset == 0 && looks_like_text(&input.bytes) {
        return Some(finding.note("this looks like text: `--as text` reads the readable notation"));
    }
    Some(finding)
}

/// Tags are control characters, so a tagged file begins with one.
fn looks_like_text(bytes: &[u8]) -> bool {
    let mut first = bytes.iter().take(64);
    first.all(|byte| byte.is_ascii_whitespace() || !byte.is_ascii_control())
}

fn order(input: &Input, place: usize, field: Option<&Field>) -> Finding {
    let Some(field) = field else {
        let open = input.module_at(place).map(|name| input.module(name));
        let open = open.unwrap_or_default();
        return Finding::new(format!("the file ends inside module {open}")).mark(
            place,
            Focus::Field,
            "the end of the module is missing",
        );
    };
    let inside = place.checked_sub(1).and_then(|_| {
        let before = Outline::of(&input.file.fields[..place]);
        before.open().map(|module| module.name)
    });
    let finding = Finding::new(match (field, inside) {
        (Field::Module { .. }, Some(name)) => {
            format!("a module begins inside module {}", input.module(name))
        }
        (Field::Extends { .. }, Some(_)) => "EXTENDS stands right after the module field".into(),
        _ => "this field stands outside a module".to_string(),
    });
    finding.mark(place, Focus::Field, "outside its order")
}

#[cfg(test)]
mod tests {
    use super::*;
    use crate::json::Refused;

    /// A refusal with a number that is no cause's, 15 among them, is told as such.
    #[test]
    fn numbers_that_are_no_causes() {
        let module = [1, 0, 2, 0, 1, 7, 0, 0];
        let input = Input::tagged("a file".to_string(), module.to_vec());
        for number in [15, 19, 20, 22] {
            let refusal = Refusal { number, place: 1 };
            let finding = find(&input, refusal);
            let unknown = "this program knows no cause with that number";
            assert_eq!(finding.message, unknown, "{number}");
            assert_eq!(finding.mark.as_ref().map(|mark| mark.field), Some(1));
            let refused = Refused::new(&input, refusal, finding);
            assert_eq!((refused.number, refused.cause), (number, unknown));
        }
    }
}
