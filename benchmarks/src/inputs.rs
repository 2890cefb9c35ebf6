//! What is timed.

use crate::{ARCHIVE, REFERENCE};
use differential::cases::Call;
use differential::eight;
use differential::families::{self, Family};
use differential::instances;
use differential::syntax::{self, and, instance, lit, n, tree_of, Expr, Field};

/// The largest file, in bytes.
const LARGEST: usize = 32_768;

/// Why an input is timed.
#[derive(Clone, Copy, Debug, PartialEq, Eq)]
pub enum Group {
    /// Modules as specifications have them. Goal: as fast as the reference.
    Realistic,
    /// Small on paper and huge in meaning, at the limits. Goal: under a second.
    Hostile,
    /// Realistic files of doubling size.
    Growth,
    /// Files in which nearly all work is reading.
    Scan,
}

impl Group {
    pub fn name(self) -> &'static str {
        match self {
            Group::Realistic => "realistic",
            Group::Hostile => "hostile",
            Group::Growth => "growth",
            Group::Scan => "scan",
        }
    }
}

/// A call on a file.
#[derive(Debug)]
pub struct Input {
    pub group: Group,
    pub family: Family,
}

impl Input {
    /// The label in letters, digits and dashes: a name for criterion and for its directory.
    pub fn slug(&self) -> String {
        let label = self.family.label.to_lowercase().replace(',', "");
        let words = label.split(|c: char| !c.is_ascii_alphanumeric());
        let words: Vec<&str> = words.filter(|word| !word.is_empty()).collect();
        words.join("-")
    }

    /// Group and slug: what a filter is matched with.
    pub fn id(&self) -> String {
        format!("{}/{}", self.group.name(), self.slug())
    }
}

fn check(label: String, file: Vec<u8>) -> Family {
    assert!(file.len() <= LARGEST, "{label}: {} bytes", file.len());
    let call = Call::Check;
    Family { label, file, call }
}

/// Every input that both sides answer.
pub fn all() -> Vec<Input> {
    let of = |group| move |family| Input { group, family };
    let mut hostile = families::checks();
    hostile.push(names_looked_up());
    hostile.extend(families::queries(true));
    hostile.extend(eight::families(true));
    hostile.extend(instances::families());
    // By the letters of the families.
    hostile.sort_by_key(|family| family.label.chars().next());
    let usual = families::usual().into_iter();
    let mut all: Vec<Input> = usual.map(of(Group::Realistic)).collect();
    all.extend(hostile.into_iter().map(of(Group::Hostile)));
    let growing = (0..6).map(|doublings| {
        let label = format!("growth, {} KB", 1 << doublings);
        check(label, families::realistic(1024 << doublings))
    });
    all.extend(growing.map(of(Group::Growth)));
    let scans = [1_024, 8_192, LARGEST].into_iter().flat_map(scans);
    all.extend(scans.map(of(Group::Scan)));
    let answered = |family: &Family| {
        let mut sides = [ARCHIVE, REFERENCE].into_iter();
        sides.all(|side| family.is_answered_by(side))
    };
    all.retain(|input| answered(&input.family));
    all
}

/// Names looked up against tables that are as full as one file lets them be beside the names.
fn names_looked_up() -> Family {
    let mut fields = vec![Field::Module(1), Field::End, Field::Module(2)];
    fields.extend((1..=64).map(Field::Variable));
    fields.extend((1_000..2_600).map(|name| instance(name, 0, 1, &[])));
    fields.extend((5_000..5_256).map(|name| Field::Definition(name, 0, n(1, &[]))));
    let left = LARGEST - syntax::file(&fields).len() - 6;
    let last = |i: usize| n(5_255 - (i % 200) as u16, &[]);
    fields.extend([Field::Theorem(tree_of(left, &last)), Field::End]);
    let label = "g: names looked up by a check".into();
    check(label, syntax::file(&fields))
}

/// Files of at most so many bytes in which nearly all work is reading.
fn scans(size: usize) -> [Family; 3] {
    let scan = |what: &str, fields: &[Field]| {
        let label = format!("scan, {what}, {} KB", size >> 10);
        check(label, syntax::file(fields))
    };
    let theorem = Field::Theorem(lit(0));
    let around = syntax::file(&[Field::Module(1), Field::End]).len();
    let count = (size - around) / theorem.bytes().len();
    let mut small = vec![Field::Module(1)];
    small.extend(vec![theorem; count]);
    small.push(Field::End);

    let formula = tree_of(size - around - 3, &|i| and(lit(i as u16), lit(1)));
    let large = [
        Field::Module(1),
        Field::Theorem(formula.clone()),
        Field::End,
    ];
    [
        scan("small fields", &small),
        scan("one formula", &large),
        scan("layout alone", &[Field::Module(1), cut_theorem(&formula)]),
    ]
}

/// A THEOREM whose formula lacks its last token: cause 3, known when all of it has been read.
fn cut_theorem(formula: &Expr) -> Field {
    let mut bytes = formula.bytes();
    bytes.truncate(bytes.len() - lit(1).bytes().len());
    let mut field = vec![9];
    field.extend((bytes.len() as u16).to_be_bytes());
    field.extend(bytes);
    Field::Raw(field)
}

#[cfg(test)]
mod tests {
    use super::*;
    use differential::cases::Case;
    use std::collections::HashSet;

    fn reply(family: &Family) -> String {
        let case = Case::new(&family.file, family.call.clone());
        case.reply(&case.run(REFERENCE))
    }

    #[test]
    fn each_input_has_a_name_of_its_own() {
        let all = all();
        let names: HashSet<String> = all.iter().map(Input::id).collect();
        assert_eq!(names.len(), all.len());
        // Criterion cuts the names of its directories here.
        assert!(all.iter().all(|input| input.slug().len() <= 64));
    }

    #[test]
    fn scans_reach_the_end_of_the_file() {
        for size in [1_024, 8_192, LARGEST] {
            let scans = scans(size);
            let replies = scans.each_ref().map(reply);
            assert_eq!(replies, ["0", "0", "refused 3 at 1"]);
            for family in scans {
                assert!(family.file.len() > size - 32, "{}", family.label);
            }
        }
    }

    #[test]
    fn names_are_found() {
        assert_eq!(reply(&names_looked_up()), "256");
    }
}
