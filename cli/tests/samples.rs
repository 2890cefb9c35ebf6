//! The samples: listings, verdicts, conversion.

mod common;

use common::{run, run_with, sample, samples};
use serde_json::Value;

#[test]
fn listings() {
    for stem in samples() {
        let listing = sample(&format!("{stem}.listing"));
        let status = i32::from(listing.starts_with(b"refused"));
        for ending in ["bin", "tla"] {
            let listed = run(&["list", &format!("samples/{stem}.{ending}")]);
            assert_eq!(listed.out, listing, "{stem}.{ending}");
            assert_eq!((listed.status, listed.err.as_str()), (status, ""), "{stem}");
        }
        let piped = run_with(&["list"], &sample(&format!("{stem}.bin")));
        assert_eq!(piped.out, listing, "{stem}");
    }
}

/// The listing, made of the JSON.
fn listed(report: &Value) -> String {
    if report["verdict"] == "refused" {
        return format!("refused {} {}\n", report["number"], report["place"]);
    }
    let mut text = format!("ok {}\n", report["definitions"]);
    for card in report["cards"].as_array().expect("cards") {
        let digits = card["card"].as_str().expect("digits");
        let [number, instance, name, parameters] =
            ["number", "instance", "name", "parameters"].map(|key| &card[key]);
        text.push_str(&format!(
            "{number} {instance} {name} {parameters} {digits}\n"
        ));
    }
    text
}

#[test]
fn many_files_as_json() {
    let stems = samples();
    let files: Vec<String> = stems.iter().map(|s| format!("samples/{s}.bin")).collect();
    let mut words = vec!["list", "--json"];
    words.extend(files.iter().map(String::as_str));
    let all = run(&words);
    assert_eq!(all.status, 1);
    let reports = all.json();
    assert_eq!(reports.len(), stems.len());
    for (stem, report) in stems.iter().zip(&reports) {
        assert_eq!(report["file"], format!("samples/{stem}.bin"));
        let listing = sample(&format!("{stem}.listing"));
        assert_eq!(listed(report).into_bytes(), listing, "{stem}");
    }
}

#[test]
fn many_files_one_line_each() {
    let stems = samples();
    let files: Vec<String> = stems.iter().map(|s| format!("samples/{s}.tla")).collect();
    let mut words = vec!["check", "--quiet"];
    words.extend(files.iter().map(String::as_str));
    let all = run(&words);
    assert_eq!((all.status, all.err.as_str()), (1, ""));
    let lines: Vec<&str> = all.text().lines().collect();
    assert_eq!(lines.len(), stems.len());
    for (stem, line) in stems.iter().zip(lines) {
        let listing = String::from_utf8(sample(&format!("{stem}.listing"))).expect("text");
        let mut words = listing.split_whitespace();
        let expected = match (words.next(), words.next()) {
            (Some("ok"), Some("1")) => "accepted, 1 definition".to_string(),
            (Some("ok"), Some(count)) => format!("accepted, {count} definitions"),
            (_, Some(number)) => format!("refused {number} at field "),
            _ => panic!("{stem}"),
        };
        let rest = line
            .strip_prefix(&format!("samples/{stem}.tla: "))
            .expect(stem);
        assert!(rest.starts_with(&expected), "{line}");
    }
}

#[test]
fn conversion() {
    for stem in samples() {
        let tagged = run(&["convert", &format!("samples/{stem}.tla")]);
        assert_eq!(tagged.out, sample(&format!("{stem}.bin")), "{stem}");
        let text = run(&["convert", &format!("samples/{stem}.bin")]);
        let back = run_with(&["convert", "--as", "text", "-"], &text.out);
        assert_eq!(back.out, sample(&format!("{stem}.bin")), "{stem}");
    }
}

#[test]
fn shown() {
    let shown = run(&["show", "samples/depth-accident.tla"]);
    assert_eq!(shown.status, 0);
    assert!(shown.text().contains(
        "     12    120  Head == INSTANCE Depth WITH unit <- scale, reading <- draghead\n"
    ));
    let shown = run(&["show", "samples/depth-accident.bin"]);
    assert!(shown.text().contains("  10-11    110  VARIABLE n8, n9\n"));
    let json = run(&["show", "--json", "samples/depth-accident.bin"]).json();
    let fields = json[0]["fields"].as_array().expect("fields");
    assert_eq!(fields.len(), 15);
    assert_eq!(fields[12]["kind"], "INSTANCE");
    assert_eq!(fields[12]["offset"], 120);
    assert_eq!(fields[12]["module"], "n2");
    assert_eq!(json[0]["fault"], Value::Null);
    let cut = run_with(&["show", "-"], &sample("example.bin")[..20]);
    assert_eq!(cut.status, 0);
    let cut = run_with(&["show", "-"], &sample("example.bin")[..19]);
    assert_eq!(cut.status, 1);
    assert!(cut
        .text()
        .contains("not a field: byte 19: bytes are missing"));
}
