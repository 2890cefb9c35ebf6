//! The readable source of a file, and where its fields stand in it.

use notation::{Parsed, Position};
use std::ops::Range;

/// A text with the places of its fields, as byte offsets.
#[derive(Default)]
pub struct Source {
    pub text: String,
    starts: Vec<usize>,
    end: usize,
}

impl Source {
    pub fn new(text: String, parsed: &Parsed) -> Source {
        let lines: Vec<usize> = std::iter::once(0)
            .chain(text.match_indices('\n').map(|(at, _)| at + 1))
            .collect();
        let offset = |place: &Position| offset(&text, &lines, *place);
        let starts = parsed.places.iter().map(offset).collect();
        let end = offset(&parsed.end);
        Source { text, starts, end }
    }

    /// The text of one field alone, after others that have none.
    pub fn of_field(text: String, field: usize) -> Source {
        let starts = vec![0; field + 1];
        let end = text.len();
        Source { text, starts, end }
    }

    /// Where a field begins; after the last field, where the text ends.
    pub fn start(&self, field: usize) -> usize {
        *self.starts.get(field).unwrap_or(&self.end)
    }

    /// The text of a field, without what stands between it and the next.
    pub fn field(&self, field: usize) -> Range<usize> {
        let start = self.start(field);
        let piece = &self.text[start..self.start(field + 1).max(start)];
        let piece = piece.split("\n\n").next().unwrap_or(piece);
        start..start + stripped(piece).len()
    }

    /// A place in a field where a word stands by itself: the first, or a later one.
    pub fn word(&self, field: usize, word: &str, nth: usize) -> Option<Range<usize>> {
        let within = self.field(field);
        let piece = &self.text[within.clone()];
        let inside = |c: char| c.is_ascii_alphanumeric() || c == '_' || c == '?';
        let alone = |&(at, _): &(usize, &str)| {
            !piece[..at].ends_with(inside) && !piece[at + word.len()..].starts_with(inside)
        };
        let (at, _) = piece.match_indices(word).filter(alone).nth(nth)?;
        Some(within.start + at..within.start + at + word.len())
    }

    /// The first place in a field where a piece of text stands.
    pub fn piece(&self, field: usize, piece: &str) -> Option<Range<usize>> {
        let within = self.field(field);
        let at = within.start + self.text[within].find(piece)?;
        Some(at..at + piece.len())
    }

    /// The text of one of an INSTANCE field's substitutions, given how many there are.
    pub fn substitution(&self, field: usize, place: usize, count: usize) -> Option<Range<usize>> {
        let within = self.field(field);
        let piece = &self.text[within.clone()];
        // No expression holds this sign; a comment may, and then nothing is pointed out.
        let arrows: Vec<usize> = piece.match_indices("<-").map(|(at, _)| at).collect();
        if arrows.len() != count {
            return None;
        }
        let start = before_arrow(piece, *arrows.get(place)?);
        let end = match arrows.get(place + 1) {
            Some(&next) => before_arrow(piece, next),
            None => piece.len(),
        };
        let length = stripped(&piece[start..end]).len();
        Some(within.start + start..within.start + start + length)
    }
}

/// Where the name that stands before an arrow begins.
fn before_arrow(text: &str, arrow: usize) -> usize {
    let mut head = text[..arrow].trim_end();
    if head.ends_with(')') {
        head = text[..head.rfind('(').unwrap_or(0)].trim_end();
    }
    let name = |c: char| c.is_ascii_alphanumeric() || c == '_';
    head.trim_end_matches(name).len()
}

/// A piece without the white space, commas, comments and dividing lines at its end.
fn stripped(piece: &str) -> &str {
    let mut piece = piece;
    loop {
        let before = piece.len();
        piece = piece.trim_end().trim_end_matches(',').trim_end();
        let line = piece.rfind('\n').map_or(0, |at| at + 1);
        if let Some(at) = piece[line..].find("\\*") {
            piece = &piece[..line + at];
        } else if piece.ends_with("*)") {
            piece = &piece[..piece.rfind("(*").unwrap_or(piece.len())];
        } else if line > 0 && piece[line..].bytes().all(|byte| byte == b'-') {
            piece = &piece[..line];
        }
        if piece.len() == before {
            return piece;
        }
    }
}

fn offset(text: &str, lines: &[usize], place: Position) -> usize {
    let Some(&start) = lines.get(place.line - 1) else {
        return text.len();
    };
    let mut characters = text[start..].char_indices();
    let nth = characters.nth(place.column - 1);
    nth.map_or(text.len(), |(at, _)| start + at)
}

/// The byte offset of a line and column of a text.
pub fn offset_of(text: &str, line: usize, column: usize) -> usize {
    let lines: Vec<usize> = std::iter::once(0)
        .chain(text.match_indices('\n').map(|(at, _)| at + 1))
        .collect();
    offset(text, &lines, Position { line, column })
}
