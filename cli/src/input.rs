//! A file as it is given: tagged bytes, or text that is converted to them.

use crate::args::Form;
use crate::diagnostics::{self, Colors};
use crate::source::{self, Source};
use crate::Misuse;
use notation::{DecodeError, Field, File, Space};
use std::fs;
use std::io::{self, Read};
use std::path::Path;

/// A file that was read.
pub struct Input {
    /// What it is called in what is printed.
    pub name: String,
    /// What its text is called.
    pub called: String,
    /// Whether that text was given, and not made of the bytes.
    pub given: bool,
    pub form: Form,
    /// The tagged bytes.
    pub bytes: Vec<u8>,
    /// The fields before the first fault of the layout, with the spellings that are known.
    pub file: File,
    /// For each of them its first byte, and the first byte after the last.
    pub offsets: Vec<usize>,
    /// The first fault of the layout.
    pub fault: Option<DecodeError>,
    pub source: Source,
}

/// How files are to be read.
#[derive(Clone, Copy)]
pub struct Reading<'r> {
    /// Whatever their names end in.
    pub form: Option<Form>,
    /// The text that a tagged file was converted from.
    pub source: Option<&'r Path>,
    pub colors: Colors,
}

impl Input {
    /// Reads a file; the name `-` is standard input.
    pub fn read(path: &Path, how: Reading) -> Result<Input, Misuse> {
        let (name, content) = content(path)?;
        let text = path.extension().is_some_and(|ending| ending == "tla");
        let form = match how.form {
            Some(form) => form,
            None if text => Form::Text,
            None => Form::Tagged,
        };
        match (form, how.source) {
            (Form::Text, _) => Input::text(name, content, how.colors),
            (Form::Tagged, None) => Ok(Input::tagged(name, content)),
            (Form::Tagged, Some(source)) => {
                let (called, text) = self::content(source)?;
                let input = Input::text(called, text, how.colors)?;
                if input.bytes == content {
                    return Ok(Input {
                        name,
                        form: Form::Tagged,
                        ..input
                    });
                }
                let called = input.called;
                let message = format!("{name}: {called} converts to other bytes");
                Err(Misuse::Message(message))
            }
        }
    }

    /// Tagged bytes.
    pub fn tagged(name: String, bytes: Vec<u8>) -> Input {
        let (file, fault) = match notation::decode(&bytes) {
            Ok(file) => (file, None),
            Err(fault) => {
                let sound = &bytes[..field_start(&bytes, fault.field)];
                (notation::decode(sound).unwrap_or_default(), Some(fault))
            }
        };
        let text = notation::print(&file);
        let source = match notation::parse_with_places(&text) {
            Ok(parsed) => Source::new(text, &parsed),
            Err(_) => Source::default(),
        };
        Input {
            called: format!("{name}, shown as text"),
            given: false,
            name,
            form: Form::Tagged,
            offsets: offsets(&file.fields),
            bytes,
            file,
            fault,
            source,
        }
    }

    fn text(name: String, content: Vec<u8>, colors: Colors) -> Result<Input, Misuse> {
        let text = String::from_utf8(content).map_err(|fault| {
            let at = fault.utf8_error().valid_up_to();
            Misuse::Message(format!("{name}: byte {at}: not UTF-8"))
        })?;
        let parsed = match notation::parse_with_places(&text) {
            Ok(parsed) => parsed,
            Err(fault) => {
                let at = source::offset_of(&text, fault.line, fault.column);
                diagnostics::not_a_text(&name, &text, at, &fault.message, colors)?;
                return Err(Misuse::Told(format!("{name}: {fault}")));
            }
        };
        let bytes = notation::encode(&parsed.file)
            .map_err(|fault| Misuse::Message(format!("{name}: {fault}")))?;
        Ok(Input {
            called: name.clone(),
            given: true,
            name,
            form: Form::Text,
            offsets: offsets(&parsed.file.fields),
            bytes,
            source: Source::new(text, &parsed),
            file: parsed.file,
            fault: None,
        })
    }

    /// An operator or instance name as it is written.
    pub fn operator(&self, name: u16) -> String {
        self.spelled(Space::Operators, name)
    }

    /// A module name as it is written.
    pub fn module(&self, name: u16) -> String {
        self.spelled(Space::Modules, name)
    }

    fn spelled(&self, space: Space, name: u16) -> String {
        let spelling = self.file.names.spelling(space, name);
        spelling.map_or_else(|| format!("n{name}"), str::to_string)
    }

    /// The name of the module that a field stands in.
    pub fn module_at(&self, field: usize) -> Option<u16> {
        let fields = &self.file.fields;
        let mut open = None;
        for (number, each) in fields.iter().enumerate().take(field.saturating_add(1)) {
            match each {
                Field::Module { name } => open = Some(*name),
                Field::End if number < field => open = None,
                _ => {}
            }
        }
        open
    }

    /// The kind of a field, in the notation's words.
    pub fn kind(&self, field: usize) -> Option<&'static str> {
        let read = self.file.fields.get(field).map(kind);
        read.or_else(|| {
            let fault = self.fault.filter(|fault| fault.field == field)?;
            let tag = self.bytes.get(field_start(&self.bytes, fault.field))?;
            KINDS.get(usize::from(tag.wrapping_sub(1))).copied()
        })
    }
}

/// The name and content of a file.
fn content(path: &Path) -> Result<(String, Vec<u8>), Misuse> {
    let (name, content) = if path == Path::new("-") {
        let mut content = Vec::new();
        let read = io::stdin().read_to_end(&mut content);
        ("standard input".to_string(), read.map(|_| content))
    } else {
        (path.display().to_string(), fs::read(path))
    };
    match content {
        Ok(content) => Ok((name, content)),
        Err(fault) => Err(Misuse::Message(format!("{name}: {fault}"))),
    }
}

const KINDS: [&str; 9] = [
    "MODULE",
    "EXTENDS",
    "CONSTANT",
    "VARIABLE",
    "definition",
    "INSTANCE",
    "end of module",
    "ASSUME",
    "THEOREM",
];

fn kind(field: &Field) -> &'static str {
    KINDS[match field {
        Field::Module { .. } => 0,
        Field::Extends { .. } => 1,
        Field::Constant { .. } => 2,
        Field::Variable { .. } => 3,
        Field::Definition { .. } => 4,
        Field::Instance { .. } => 5,
        Field::End => 6,
        Field::Assume { .. } => 7,
        Field::Theorem { .. } => 8,
    }]
}

/// Tag and length take three bytes.
const HEAD: usize = 3;

fn offsets(fields: &[Field]) -> Vec<usize> {
    let mut at = 0;
    let mut offsets = vec![0];
    for field in fields {
        at += HEAD + field.length();
        offsets.push(at);
    }
    offsets
}

/// The first byte of a field, by the lengths of those before it.
fn field_start(bytes: &[u8], field: usize) -> usize {
    let mut at = 0;
    for _ in 0..field {
        let Some(&[_, high, low]) = bytes.get(at..at + HEAD) else {
            break;
        };
        at += HEAD + usize::from(u16::from_be_bytes([high, low]));
    }
    at.min(bytes.len())
}
