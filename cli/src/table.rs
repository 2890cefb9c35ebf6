//! Cards drawn for people.

use crate::archive::{Card, Reading};
use crate::causes::LEVELS;
use std::fmt::Write;

/// What the levels mean.
pub fn legend() -> String {
    let words = LEVELS.iter().enumerate();
    let words: Vec<String> = words
        .map(|(level, word)| format!("{level} {word}"))
        .collect();
    words.join(", ")
}

/// A level with its word, as replies have it.
pub fn reply(level: u8) -> String {
    let word = LEVELS.get(usize::from(level)).unwrap_or(&"");
    format!("{level} {word}")
}

/// A card: the level with all parameters at 0, a line for each parameter, how to read it, and its
/// bytes. There are as many names as the card has parameters.
pub fn draw(names: &[String], card: &Card) -> String {
    let level = card.level_at_zero();
    let mut text = match names.is_empty() {
        true => format!("  level {}\n", reply(level)),
        false => format!("  level with all at 0: {}\n", reply(level)),
    };
    if !names.is_empty() {
        let _ = write!(text, "\n{}", lines(names, card));
        let _ = write!(text, "\n{}", rule(card));
    }
    let _ = write!(text, "\n  {}\n", bytes(card));
    text
}

/// For each parameter the levels taken, whether it weighs, and what it clashes with.
fn lines(names: &[String], card: &Card) -> String {
    let width = names.iter().map(|name| name.chars().count()).max();
    let width = width.unwrap_or(0);
    let mut text = String::new();
    let mut line = |name: &str, takes: &str, weighs: &str, clashes: &str| {
        let line = format!("  {name:width$}  {takes:9}  {weighs:6}  {clashes}");
        let _ = writeln!(text, "{}", line.trim_end());
    };
    line("", "takes", "weighs", "clashes with");
    for (parameter, name) in names.iter().enumerate() {
        let takes = (0..5).map(|level| match card.takes(parameter, level) {
            true => level.to_string(),
            false => "-".to_string(),
        });
        let takes: Vec<String> = takes.collect();
        let weighs = if card.weighs(parameter) { "yes" } else { "" };
        let others = names.iter().enumerate();
        let others = others.filter(|(other, _)| card.clash(parameter, *other));
        let others: Vec<&str> = others.map(|(_, name)| name.as_str()).collect();
        line(name, &takes.join(" "), weighs, &others.join(", "));
    }
    text
}

/// How to read the card, as far as it has what is to be read.
fn rule(card: &Card) -> String {
    let level = card.level_at_zero();
    // What is taken at 4 counts nowhere.
    if (0..card.parameters()).all(|each| card.takes(each, 4)) {
        return format!("  {level} at all levels\n");
    }
    let mut text = String::from("  4 at a level that is not taken (-)\n");
    if card.clashes().next().is_some() {
        text.push_str("  4 where of two that clash one is at 2 and the other at 3\n");
    }
    let _ = match (0..card.parameters()).any(|each| card.weighs(each)) {
        true => writeln!(
            text,
            "  else the highest of {level} and the levels of those that weigh"
        ),
        false => writeln!(text, "  else {level}"),
    };
    text
}

/// Count, level and weights; the masks; the pairs; zero.
fn bytes(card: &Card) -> String {
    let bytes = card.bytes();
    let parts = [&bytes[..3], &bytes[3..11], &bytes[11..15], &bytes[15..]];
    let parts = parts.map(|part| {
        let each: Vec<String> = part.iter().map(|byte| format!("{byte:02x}")).collect();
        each.join(" ")
    });
    parts.join("  ")
}

/// Why a card gives the level that it gives.
pub fn why(names: &[String], card: &Card, reading: Reading) -> String {
    let name = |parameter: usize| names.get(parameter).map_or("", String::as_str);
    match reading {
        Reading::NotTaken { parameter, level } => {
            format!("{} is not taken at {level}", name(parameter))
        }
        Reading::Clash { action, temporal } => {
            format!("{} at 2 and {} at 3 clash", name(action), name(temporal))
        }
        Reading::Raised { parameter, level } => {
            format!("{} at {level} is the highest that weighs", name(parameter))
        }
        Reading::AsAtZero { level } if (0..card.parameters()).any(|each| card.weighs(each)) => {
            format!("nothing that weighs is above {level}")
        }
        Reading::AsAtZero { .. } => "nothing weighs".to_string(),
    }
}

#[cfg(test)]
mod tests {
    use super::*;

    fn names(names: &[&str]) -> Vec<String> {
        names.iter().map(|name| name.to_string()).collect()
    }

    fn card(digits: &str) -> Card {
        let byte = |at: usize| u8::from_str_radix(&digits[2 * at..2 * at + 2], 16).expect("digits");
        Card::new(std::array::from_fn(byte)).expect("a card")
    }

    const READY: &str = "06011c03070f0f0f0700000000032000";

    fn winch() -> Vec<String> {
        names(&["rope", "step", "slack", "load", "brake", "order"])
    }

    #[test]
    fn no_parameter() {
        let drawn = draw(&[], &card("00020000000000000000000000000000"));
        let expected = "  level 2 transition\n\n  \
             00 02 00  00 00 00 00 00 00 00 00  00 00 00 00  00\n";
        assert_eq!(drawn, expected);
    }

    /// Nothing weighs, and nothing clashes.
    #[test]
    fn one_parameter() {
        let drawn = draw(&names(&["p"]), &card("01020003000000000000000000000000"));
        let expected = "  level with all at 0: 2 transition

     takes      weighs  clashes with
  p  0 1 - - -

  4 at a level that is not taken (-)
  else 2

  01 02 00  03 00 00 00 00 00 00 00  00 00 00 00  00
";
        assert_eq!(drawn, expected);
    }

    #[test]
    fn six_parameters() {
        let drawn = draw(&winch(), &card(READY));
        let expected = "  level with all at 0: 1 state

         takes      weighs  clashes with
  rope   0 1 - - -
  step   0 1 2 - -
  slack  0 1 2 3 -  yes     load, brake
  load   0 1 2 3 -  yes     slack, brake
  brake  0 1 2 3 -  yes     slack, load
  order  0 1 2 - -

  4 at a level that is not taken (-)
  4 where of two that clash one is at 2 and the other at 3
  else the highest of 1 and the levels of those that weigh

  06 01 1c  03 07 0f 0f 0f 07 00 00  00 00 03 20  00
";
        assert_eq!(drawn, expected);
    }

    /// One parameter that weighs has none to clash with; all levels are taken of one that is not
    /// used, and none where nothing is level-correct.
    #[test]
    fn masks() {
        let drawn = draw(
            &names(&["p", "qq"]),
            &card("020001071f0000000000000000000000"),
        );
        assert!(
            drawn.contains("\n  p   0 1 2 - -  yes\n  qq  0 1 2 3 4\n"),
            "{drawn}"
        );
        assert!(
            drawn.contains("(-)\n  else the highest of 0 and the levels of those that weigh\n"),
            "{drawn}"
        );
        let drawn = draw(
            &names(&["p", "q"]),
            &card("0201001f1f0000000000000000000000"),
        );
        assert!(
            drawn.contains("\n  q  0 1 2 3 4\n\n  1 at all levels\n\n"),
            "{drawn}"
        );
        let drawn = draw(&names(&["p"]), &card("01040000000000000000000000000000"));
        assert!(drawn.contains("\n  p  - - - - -\n"), "{drawn}");
    }

    /// All 28 pairs.
    #[test]
    fn eight_parameters() {
        let eight = names(&["a", "b", "c", "d", "e", "f", "g", "h"]);
        let drawn = draw(&eight, &card("0800ff0f0f0f0f0f0f0f0f0fffffff00"));
        assert!(
            drawn.contains("\n  a  0 1 2 3 -  yes     b, c, d, e, f, g, h\n"),
            "{drawn}"
        );
        assert!(
            drawn.contains("\n  h  0 1 2 3 -  yes     a, b, c, d, e, f, g\n"),
            "{drawn}"
        );
    }

    #[test]
    fn reasons() {
        let (names, ready) = (winch(), card(READY));
        for (levels, level, reason) in [
            ([2, 3, 0, 0, 0, 0], 4, "rope is not taken at 2"),
            ([1, 3, 2, 0, 3, 0], 4, "step is not taken at 3"),
            ([1, 2, 2, 0, 3, 2], 4, "slack at 2 and brake at 3 clash"),
            ([1, 2, 3, 2, 3, 2], 4, "load at 2 and slack at 3 clash"),
            (
                [1, 2, 0, 1, 3, 2],
                3,
                "brake at 3 is the highest that weighs",
            ),
            (
                [1, 2, 2, 2, 1, 2],
                2,
                "slack at 2 is the highest that weighs",
            ),
            ([0, 2, 1, 1, 1, 2], 1, "nothing that weighs is above 1"),
        ] {
            let reading = ready.reading(&levels).expect("levels");
            assert_eq!(reading.level(), level, "{levels:?}");
            assert_eq!(why(&names, &ready, reading), reason, "{levels:?}");
        }
        let primed = card("01020003000000000000000000000000");
        let reading = primed.reading(&[1]).expect("a level");
        assert_eq!(why(&names, &primed, reading), "nothing weighs");
    }
}
