//! The samples: text, tagged file and listing belong together.

use notation::{decode, encode, parse, parse_with_places, print};
use std::fs;
use std::path::{Path, PathBuf};

fn directory() -> PathBuf {
    Path::new(env!("CARGO_MANIFEST_DIR")).join("../samples")
}

fn stems() -> Vec<String> {
    let mut stems = Vec::new();
    for entry in fs::read_dir(directory()).expect("samples") {
        let name = entry.expect("an entry").file_name();
        if let Some(stem) = name.to_string_lossy().strip_suffix(".tla") {
            stems.push(stem.to_string());
        }
    }
    stems.sort();
    stems
}

fn text(name: &str) -> String {
    fs::read_to_string(directory().join(name)).expect(name)
}

fn bytes(name: &str) -> Vec<u8> {
    fs::read(directory().join(name)).expect(name)
}

#[test]
fn texts_and_files() {
    let stems = stems();
    assert!(stems.len() >= 20, "{stems:?}");
    for stem in stems {
        let source = text(&format!("{stem}.tla"));
        let file = parse(&source).unwrap_or_else(|fault| panic!("{stem}: {fault}"));
        let tagged = bytes(&format!("{stem}.bin"));
        assert_eq!(encode(&file).as_ref(), Ok(&tagged), "{stem}");
        assert_eq!(parse(&print(&file)).as_ref(), Ok(&file), "{stem}");
        let back = decode(&tagged).unwrap_or_else(|fault| panic!("{stem}: {fault}"));
        assert_eq!(back.fields, file.fields, "{stem}");
        assert_eq!(parse(&print(&back)).as_ref(), Ok(&back), "{stem}");
        assert_eq!(encode(&back).as_ref(), Ok(&tagged), "{stem}");
    }
}

/// A card is 32 hexadecimal digits: parameter count, level, weights, eight masks, four bytes of pairs and
/// a zero; with n parameters n weights, masks and n(n - 1)/2 pairs are used.
fn assert_card(stem: &str, parameters: usize, card: &str) {
    let lower = |digit: u8| digit.is_ascii_digit() || (b'a'..=b'f').contains(&digit);
    assert!(
        card.len() == 32 && card.bytes().all(lower),
        "{stem}: {card}"
    );
    let bytes: Vec<u8> = (0..16)
        .map(|at| u8::from_str_radix(&card[2 * at..2 * at + 2], 16).expect("digits"))
        .collect();
    assert!(parameters <= 8, "{stem}: {card}");
    assert_eq!(usize::from(bytes[0]), parameters, "{stem}: {card}");
    assert!(bytes[1] < 4, "{stem}: {card}");
    assert_eq!(u32::from(bytes[2]) >> parameters, 0, "{stem}: {card}");
    for (at, mask) in bytes[3..11].iter().enumerate() {
        let masks: &[u8] = if at < parameters {
            &[31, 15, 7, 11, 3]
        } else {
            &[0]
        };
        assert!(masks.contains(mask), "{stem}: {card}");
    }
    let pairs = u32::from_be_bytes([bytes[11], bytes[12], bytes[13], bytes[14]]);
    assert_eq!(
        u64::from(pairs) >> (parameters * parameters.saturating_sub(1) / 2),
        0,
        "{stem}: {card}"
    );
    assert_eq!(bytes[15], 0, "{stem}: {card}");
}

#[test]
fn listings_have_their_form() {
    for stem in stems() {
        let listing = text(&format!("{stem}.listing"));
        let parsed = parse_with_places(&text(&format!("{stem}.tla"))).expect("it parses");
        let lines: Vec<Vec<&str>> = listing.lines().map(|l| l.split(' ').collect()).collect();
        match lines[0][..] {
            ["ok", count] => {
                assert_eq!(count.parse::<usize>(), Ok(lines.len() - 1), "{stem}");
                for (number, line) in lines[1..].iter().enumerate() {
                    assert_eq!(line[0], number.to_string(), "{stem}");
                    let parameters: usize = line[3].parse().expect("a count");
                    assert_card(stem.as_str(), parameters, line[4]);
                }
            }
            ["refused", _, place] => {
                assert_eq!(lines.len(), 1, "{stem}");
                let place: usize = place.parse().expect("a place");
                assert!(place <= parsed.places.len(), "{stem}");
            }
            _ => panic!("{stem}: {listing}"),
        }
    }
}

/// Refusals, and the lines of the texts that they point at.
#[test]
fn refusals() {
    for (stem, refusal, source) in [
        (
            "depth-accident",
            "refused 14 12\n",
            "Head == INSTANCE Depth",
        ),
        ("chain-named", "refused 16 14\n", "Port == INSTANCE Winch"),
        ("trial-n", "refused 12 3\n", "D =="),
        ("trial-nesting-33", "refused 5 2\n", "Deep =="),
        ("trial-definitions-257", "refused 5 257\n", "d256 =="),
        ("trial-prime-in-prime", "refused 12 3\n", "Bad =="),
        ("trial-box-action", "refused 12 3\n", "Bad =="),
        ("trial-hidden-prime", "refused 12 3\n", "Bad =="),
        ("trial-g-at-2-0", "refused 12 4\n", "Bad =="),
        ("trial-g-at-2-3", "refused 12 4\n", "Bad =="),
        ("mixed-formula", "refused 12 5\n", "Spec =="),
        ("mixed-instance", "refused 21 13\n", "Sheet == INSTANCE"),
        ("winch-mixed", "refused 12 12\n", "Both =="),
        ("parameters-9", "refused 5 2\n", "Nine("),
        ("instance-parameters-9", "refused 5 6\n", "Bent("),
        ("substitute-parameters-9", "refused 5 7\n", "Bent("),
    ] {
        assert_eq!(text(&format!("{stem}.listing")), refusal);
        let written = text(&format!("{stem}.tla"));
        let parsed = parse_with_places(&written).expect("it parses");
        let place: usize = refusal
            .trim()
            .rsplit(' ')
            .next()
            .map_or(0, |p| p.parse().expect("a place"));
        let line = written
            .lines()
            .nth(parsed.places[place].line - 1)
            .expect("a line");
        assert!(line.starts_with(source), "{stem}: {line}");
    }
}

/// The listing example of the paper.
#[test]
fn example() {
    let paper = [
        0x01, 0x00, 0x02, 0x00, 0x01, 0x04, 0x00, 0x02, 0x00, 0x02, 0x05, 0x00, 0x07, 0x00, 0x03,
        0x01, 0x04, 0x70, 0x00, 0x00, 0x07, 0x00, 0x00,
    ];
    assert_eq!(bytes("example.bin"), paper);
    let zeros = "0".repeat(24);
    let listing = format!("ok 1\n0 0 3 1 01020003{zeros}\n");
    assert_eq!(text("example.listing"), listing);
}

/// Definitions written out as the expansion gives them have the same cards.
#[test]
fn expanded_cards() {
    let cards = |name: &str| -> Vec<String> {
        let listing = text(name);
        let cards = listing.lines().skip(1);
        cards
            .map(|l| l.splitn(4, ' ').last().unwrap_or("").to_string())
            .collect()
    };
    let (whole, expanded) = (
        cards("relation.listing"),
        cards("relation-expanded.listing"),
    );
    assert_eq!(expanded.len(), 9);
    assert_eq!(whole[whole.len() - 9..], expanded[..]);
}
