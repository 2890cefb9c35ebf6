//! The times of both sides in one table, and the verdict.

use crate::inputs::{Group, Input};
use crate::time::{exponent, Time};
use std::fmt::{self, Display, Formatter};
use std::time::Duration;

/// What a call on a hostile file may take at most.
pub const LIMIT: Duration = Duration::from_secs(1);

/// How a side was timed.
#[derive(Clone, Copy, Debug)]
pub enum Timed {
    /// By criterion.
    Sampled(Time),
    /// In one call that took longer than the limit.
    Once(Time),
    /// Not in this run.
    Not,
}

impl Timed {
    /// This and a later measurement of the same side.
    pub fn joined(self, later: Timed) -> Timed {
        match (self, later) {
            (Timed::Sampled(a), Timed::Sampled(b)) => Timed::Sampled(a.joined(&b)),
            (Timed::Not, timed) | (timed, _) => timed,
        }
    }

    pub fn time(&self) -> Option<Time> {
        match *self {
            Timed::Sampled(time) | Timed::Once(time) => Some(time),
            Timed::Not => None,
        }
    }
}

impl Display for Timed {
    fn fmt(&self, f: &mut Formatter) -> fmt::Result {
        let cell = match self {
            Timed::Sampled(time) => {
                format!("{:.1} ±{:4.1}%", time.mean * 1e6, time.spread() * 1e2)
            }
            Timed::Once(time) => format!("{:.1}   once", time.mean * 1e6),
            Timed::Not => "-".into(),
        };
        f.pad(&cell)
    }
}

/// An input with what both sides reply and the time that they take.
pub struct Row<'a> {
    pub input: &'a Input,
    /// The reference's reply in words.
    pub reply: String,
    /// The archive's, where reply, cards or output are others.
    pub other: Option<String>,
    pub reference: Timed,
    pub archive: Timed,
}

impl Row<'_> {
    fn is_timed(&self) -> bool {
        [&self.reference, &self.archive]
            .iter()
            .any(|side| side.time().is_some())
    }

    fn ratio(&self) -> Option<Time> {
        Some(self.archive.time()?.ratio(&self.reference.time()?))
    }

    /// What is wrong with it, if anything is.
    fn fault(&self) -> Option<String> {
        let label = &self.input.family.label;
        if let Some(other) = &self.other {
            let reply = &self.reply;
            return Some(format!(
                "{label}: the archive leaves something else than the reference (replies {other} and {reply})"
            ));
        }
        let high = self.archive.time()?.high;
        let over = self.input.group == Group::Hostile && high > LIMIT.as_secs_f64();
        over.then(|| format!("{label}: a call of the archive takes up to {high:.2} s"))
    }
}

impl Display for Row<'_> {
    fn fmt(&self, f: &mut Formatter) -> fmt::Result {
        let family = &self.input.family;
        write!(
            f,
            "{:40} {:>8} {:>16} {:>18} {:>18}",
            family.label,
            family.bytes(),
            self.reply,
            self.reference,
            self.archive
        )?;
        match self.ratio() {
            Some(Time { mean, low, high }) => write!(f, " {mean:>7.2} ({low:.2} to {high:.2})"),
            None => write!(f, " {:>7}", "-"),
        }
    }
}

/// All rows.
pub struct Table<'a>(pub Vec<Row<'a>>);

impl<'a> Table<'a> {
    fn timed(&self) -> impl Iterator<Item = &Row<'a>> {
        self.0.iter().filter(|row| row.is_timed())
    }

    fn of(&self, group: Group) -> impl Iterator<Item = &Row<'a>> {
        self.timed().filter(move |row| row.input.group == group)
    }

    /// The power of the file's size that the time of a side grows with.
    fn growth(&self, side: impl Fn(&Row<'a>) -> Timed) -> Option<f64> {
        let point = |row: &Row<'a>| Some((row.input.family.file.len(), side(row).time()?.mean));
        exponent(&self.of(Group::Growth).filter_map(point).collect::<Vec<_>>())
    }

    /// The row of a group with the largest value of something.
    fn largest(
        &self,
        group: Group,
        value: impl Fn(&Row<'a>) -> Option<f64>,
    ) -> Option<(f64, &Row<'a>)> {
        self.of(group)
            .filter_map(|row| Some((value(row)?, row)))
            .max_by(|a, b| a.0.total_cmp(&b.0))
    }

    /// Whether the archive is as fast as the reference on realistic files, as far as the samples tell.
    fn goal(&self) -> &'static str {
        let ratios: Vec<Time> = self.of(Group::Realistic).filter_map(Row::ratio).collect();
        if ratios.iter().any(|ratio| ratio.low > 1.0) {
            "not met"
        } else if ratios.iter().all(|ratio| ratio.high <= 1.0) {
            "met"
        } else {
            "not decided"
        }
    }

    /// Why the run is a failure; empty if it is none.
    pub fn faults(&self) -> Vec<String> {
        let mut faults: Vec<String> = self.0.iter().filter_map(Row::fault).collect();
        if self.timed().next().is_none() {
            faults.push("nothing was timed".into());
        }
        faults
    }
}

impl Display for Table<'_> {
    fn fmt(&self, f: &mut Formatter) -> fmt::Result {
        writeln!(
            f,
            "{:40} {:>8} {:>16} {:>18} {:>18} {:>7}",
            "", "bytes", "reply", "reference (µs)", "archive (µs)", "ratio"
        )?;
        self.timed().try_for_each(|row| writeln!(f, "{row}"))?;
        writeln!(f)?;
        let sides = (
            self.growth(|row| row.reference),
            self.growth(|row| row.archive),
        );
        if let (Some(reference), Some(archive)) = sides {
            writeln!(
                f,
                "growth: with the size to the power {reference:.2} (reference), {archive:.2} (archive)"
            )?;
        }
        let ratio = |row: &Row| Some(row.ratio()?.mean);
        if let Some((ratio, row)) = self.largest(Group::Realistic, ratio) {
            let (goal, label) = (self.goal(), &row.input.family.label);
            writeln!(
                f,
                "goal of ratios up to 1.00 on realistic files: {goal}, largest {ratio:.2} ({label})"
            )?;
        }
        let time = |row: &Row| Some(row.archive.time()?.high);
        if let Some((time, row)) = self.largest(Group::Hostile, time) {
            let label = &row.input.family.label;
            writeln!(f, "slowest hostile family: {time:.3} s ({label})")?;
        }
        let faults = self.faults();
        if faults.is_empty() {
            let (timed, all) = (self.timed().count(), self.0.len());
            let limit = LIMIT.as_secs();
            return writeln!(
                f,
                "pass: same replies and memory, no hostile family over {limit} s, {timed} of {all} inputs timed"
            );
        }
        writeln!(f, "fail: {}", faults.join("; "))
    }
}

#[cfg(test)]
mod tests {
    use super::*;
    use differential::cases::Call;
    use differential::families::Family;

    fn input(group: Group) -> Input {
        let family = Family {
            label: "some".into(),
            file: vec![0; 7],
            call: Call::Check,
        };
        Input { group, family }
    }

    fn row(input: &Input, reference: f64, archive: f64) -> Row<'_> {
        let timed = |mean| {
            Timed::Sampled(Time {
                mean,
                low: mean * 0.9,
                high: mean * 1.1,
            })
        };
        Row {
            input,
            reply: "3".into(),
            other: None,
            reference: timed(reference),
            archive: timed(archive),
        }
    }

    fn last_line(table: &Table) -> String {
        table.to_string().lines().last().unwrap().into()
    }

    #[test]
    fn ratios_are_shown() {
        let some = input(Group::Realistic);
        let text = Table(vec![row(&some, 1e-5, 1.5e-5)]).to_string();
        assert!(text.contains("10.0 ±10.0%"), "{text}");
        assert!(text.contains("1.50 (1.23 to 1.83)"), "{text}");
        assert!(text.contains("not met, largest 1.50"), "{text}");
        let goal = |ratio| Table(vec![row(&some, 1e-5, ratio * 1e-5)]).goal();
        assert_eq!(
            [0.8, 0.99, 1.5].map(goal),
            ["met", "not decided", "not met"]
        );
    }

    #[test]
    fn hostile_families_over_the_limit_fail() {
        let (hostile, other) = (input(Group::Hostile), input(Group::Growth));
        let slow = Table(vec![row(&hostile, 0.5, 0.95)]);
        assert!(last_line(&slow).starts_with("fail: some: "));
        let quick = Table(vec![row(&hostile, 0.5, 0.8), row(&other, 2.0, 2.0)]);
        assert!(last_line(&quick).starts_with("pass: "));
        assert!(last_line(&quick).ends_with("2 of 2 inputs timed"));
    }

    #[test]
    fn differences_fail_even_untimed() {
        let some = input(Group::Scan);
        let mut different = row(&some, 1.0, 1.0);
        different.other = Some("refused 9 at 4".into());
        different.reference = Timed::Not;
        different.archive = Timed::Not;
        let table = Table(vec![different, row(&some, 1.0, 1.0)]);
        assert_eq!(table.faults().len(), 1);
        assert!(last_line(&table).contains("refused 9 at 4"));
    }

    #[test]
    fn nothing_timed_is_no_pass() {
        assert_eq!(last_line(&Table(Vec::new())), "fail: nothing was timed");
    }
}
