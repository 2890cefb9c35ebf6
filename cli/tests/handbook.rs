//! The handbook shows what its commands print, and has the causes as `explain` has them.

mod common;

use common::{root, run, run_with, sample, words};
use std::fs;

#[test]
fn commands_print_what_it_shows() {
    let text = fs::read_to_string(root().join("docs/HANDBOOK.md")).expect("the handbook");
    let mut lines = text.lines().peekable();
    let (mut ran, mut compared) = (0, 0);
    while let Some(line) = lines.next() {
        let asked = line.strip_prefix("    rafterclary ");
        let Some(command) = asked.filter(|line| line.contains("samples/") && !line.contains("   "))
        else {
            continue;
        };
        // What is indented up to the next text or command.
        let mut shown = String::new();
        while let Some(next) = lines.peek() {
            let inside = next.is_empty() || next.starts_with("    ");
            if !inside || next.starts_with("    rafterclary ") {
                break;
            }
            shown += next.strip_prefix("    ").unwrap_or_default();
            shown.push('\n');
            lines.next();
        }
        let words = words(command);
        let told = run(&words.iter().map(String::as_str).collect::<Vec<_>>());
        assert_ne!(told.status, 2, "{command}: {}", told.err);
        ran += 1;
        if !shown.trim().is_empty() {
            assert_eq!(told.text().trim(), shown.trim(), "{command}");
            compared += 1;
        }
    }
    assert_eq!((ran, compared), (20, 18));
}

/// The modules shown before a listing are those of the sample that is listed.
#[test]
fn modules_are_those_of_the_samples() {
    let text = fs::read_to_string(root().join("docs/HANDBOOK.md")).expect("the handbook");
    let blocks: Vec<&str> = text.split("\n\n").collect();
    let mut compared = 0;
    for pair in blocks.windows(2) {
        let (shown, command) = (pair[0], pair[1]);
        let listed = command.strip_prefix("    rafterclary list samples/");
        let Some((stem, _)) = listed.and_then(|listed| listed.split_once(".tla")) else {
            continue;
        };
        assert!(shown.starts_with("    ---- MODULE "), "{shown}");
        let told = run_with(&["convert", "--as", "text", "-"], shown.as_bytes());
        assert_eq!(told.out, sample(&format!("{stem}.bin")), "{stem}");
        compared += 1;
    }
    assert_eq!(compared, 2);
}

fn one_line(text: &str) -> String {
    text.split_whitespace().collect::<Vec<_>>().join(" ")
}

/// Each section says what `explain` says, and they stand in the order in which causes are judged,
/// 15, which is none, between its neighbours.
#[test]
fn causes() {
    let text = fs::read_to_string(root().join("docs/HANDBOOK.md")).expect("the handbook");
    let (_, refusals) = text.split_once("\n## Refusals\n").expect("the section");
    let refusals = refusals.split("\n## ").next().expect("its text");
    let sections: Vec<&str> = refusals.split("\n### ").skip(1).collect();
    let numbers: Vec<u32> = (1..=14).chain([21]).chain(15..=18).collect();
    assert_eq!(sections.len(), numbers.len());
    for (section, number) in sections.iter().zip(numbers) {
        let told = &run(&["explain", "--json", &number.to_string()]).json()[0];
        assert_eq!(told["used"], number != 15);
        let word = |key: &str| told[key].as_str().unwrap_or_default();
        let title = told["cause"].as_str().unwrap_or("not used");
        let head = format!("{number}: {title}\n\n{}\n", word("meaning"));
        assert!(section.starts_with(&head), "{section}\n{head}");
        let shown = one_line(section);
        for key in ["hexadecimal", "text"] {
            assert!(shown.contains(&one_line(word(key))), "{number}: {key}");
        }
        if let Some(place) = told["place"].as_u64() {
            let reply = format!("`refused {number} {place}`");
            assert!(section.contains(&reply), "{reply}");
        }
    }
}
