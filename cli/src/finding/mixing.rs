//! An action beside a temporal formula: in an expression (cause 12), among substitutes (cause 21).

use super::levels::Substitute;
use super::writing::{piece, which, Slot};
use super::{Finding, Site};
use crate::causes::level;
use crate::innermost::{InBody, Innermost, Mixed, Part};
use notation::{codes, Field, Token};

const DO_NOT_MIX: &str = "action and temporal do not mix";
const WHY: &str = "an action is true or false of a step, a temporal formula of a whole behaviour";

/// A part whose text is not known.
const UNWRITTEN: &str = "an expression over a bound variable";

impl Site<'_> {
    /// An expression with an action and a temporal formula in it.
    pub(super) fn mixed_terms(&self, slot: Slot, inner: &Innermost, mixed: &Mixed) -> Finding {
        match mixed {
            Mixed::Arguments(mixed) => self.mixed_arguments(slot, &inner.whole, mixed),
            Mixed::Body(mixed) => self.mixed_in_body(slot, inner, mixed),
        }
    }

    fn mixed_arguments(&self, slot: Slot, whole: &Part, mixed: &[Part; 2]) -> Finding {
        let [action, temporal] = mixed;
        let written = [action, temporal].map(|part| self.written_part(slot, part));
        let [first, second] =
            [&written[0], &written[1]].map(|each| each.as_deref().unwrap_or(UNWRITTEN));
        let met = format!("{first} has level 2, {second} has level 3");
        let mut finding = match self.called(whole.head()) {
            Some(called) => Finding::new(format!("{DO_NOT_MIX} in {called}: {met}")).name(called),
            None => Finding::new(format!("{DO_NOT_MIX}: {met}")),
        };
        for (part, written) in mixed.iter().zip(&written) {
            finding = self.point_at(finding, part, written.as_deref());
        }
        finding = finding.note(WHY);
        match &written[0] {
            Some(written) if is_junction(whole.head()) => {
                finding.note(made_temporal(action, written))
            }
            _ => finding,
        }
    }

    /// A call of an operator whose body puts an argument beside what does not mix with it.
    fn mixed_in_body(&self, slot: Slot, inner: &Innermost, mixed: &InBody) -> Finding {
        let head = inner.whole.head();
        let called = self.called(head).unwrap_or_default();
        let written = self.written_part(slot, &mixed.argument);
        let which = which(&mixed.places, inner.arguments.len());
        let own = |level: String| format!("{called} has {level} with its {which} at level 0");
        let (given, beside) = match mixed.without {
            2 => (3, "an action"),
            _ => (2, "a temporal formula"),
        };
        let finding = Finding::new(format!(
            "{DO_NOT_MIX} in {called}: {}, and {} has level {given}",
            own(format!("level {}", mixed.without)),
            written.as_deref().unwrap_or(UNWRITTEN),
        ));
        let finding = finding.name(&called);
        let finding = self.point_at(finding, &mixed.argument, written.as_deref());
        let finding = self
            .at_meaning(finding, head, own(level(mixed.without)))
            .note(format!(
                "the body of {called} puts its {which} beside {beside}"
            ))
            .note(WHY);
        match (given, written) {
            _ if !is_junction(mixed.joined) => finding,
            (2, Some(written)) => finding.note(made_temporal(&mixed.argument, &written)),
            (2, None) => finding,
            _ => finding.note(format!("for an action A of {called}, {}", every_step("A"))),
        }
    }

    /// Marks a part with its level, and notes its name if it is one.
    fn point_at(&self, finding: Finding, part: &Part, written: Option<&str>) -> Finding {
        let (Some(written), Some(found)) = (written, part.level) else {
            return finding;
        };
        let text = format!("{written} has {}", level(found));
        let finding = finding.point(self.place, piece(part, written), text);
        match self.called(part.head()) {
            Some(name) if part.alone() => finding.name(name),
            _ => finding,
        }
    }

    /// The first substitute at level 2 and the first at 3 of an instance of a constant module.
    pub(super) fn mixed_substitutes(&self) -> Option<Finding> {
        let Field::Instance { module, .. } = self.field else {
            return None;
        };
        let substitutes = self.substitutes(self.outline.ended(*module)?);
        let at = |wanted| {
            let mut each = substitutes.iter();
            each.find(|each| each.level(self.before) == Some(wanted))
        };
        let (action, temporal) = (at(2)?, at(3)?);
        let called = format!("module {}", self.input.module(*module));
        let written = |each: &Substitute| self.written(each.slot(), &each.expression);
        let (first, second) = (written(action)?, written(temporal)?);
        let told = |each: &Substitute, written: &str| match each.written {
            Some(_) => format!("{written} for {}", self.operator(each.declared.name)),
            None => written.to_string(),
        };
        let mut finding = Finding::new(format!(
            "{DO_NOT_MIX} in an instance of {called}: {} has level 2, {} has level 3",
            told(action, &first),
            told(temporal, &second)
        ));
        for (each, written, found) in [(action, &first, 2), (temporal, &second, 3)] {
            finding = self.told_of(finding, each, written, level(found));
            finding = finding.name(self.operator(each.declared.name));
        }
        let constant = format!(
            "{called} is constant (no variable, no definition above level 0): its constants may be \
             replaced by actions or by temporal formulas, but not by both in one instance"
        );
        let instead = "put [][A]_v, which is temporal, for an action A, or split the module, so \
                       that no instance takes both";
        finding = finding.note(constant).note(WHY).note(instead);
        for each in [action, temporal] {
            if each.written.is_none() {
                let name = self.operator(each.declared.name);
                finding = finding.note(format!(
                    "if {name} stands for itself by accident, write a substitution for it"
                ));
            }
        }
        Some(finding)
    }

    /// Marks a substitute: where it is written, or where what stands for itself gets its meaning.
    fn told_of(
        &self,
        finding: Finding,
        each: &Substitute,
        written: &str,
        found: String,
    ) -> Finding {
        if each.written.is_some() {
            let text = format!("{written} has {found}");
            return finding.point(self.place, self.substituted_at(each), text);
        }
        let text = format!("{written} stands for itself, and has {found}");
        self.at_meaning(finding, each.expression.tokens()[0], text)
    }

    /// Says something of a name where it, or the instance that it is brought by, gets its meaning.
    fn at_meaning(&self, finding: Finding, head: Token, text: String) -> Finding {
        let (Token::Name { name, .. } | Token::Instance { instance: name, .. }) = head else {
            return finding.note(text);
        };
        let meaning = self.outline.open().and_then(|open| open.meaning(name));
        match meaning {
            Some(meaning) => finding.other(self.outline.field(meaning), self.word(name), text),
            None => finding.note(text),
        }
    }
}

fn is_junction(head: Token) -> bool {
    matches!(head, Token::BuiltIn(codes::AND | codes::OR))
}

/// What may be written for an action beside a temporal formula. Before [A]_v and <<A>>_v a sign was
/// forgotten.
fn made_temporal(action: &Part, written: &str) -> String {
    let says = |sign, steps| {
        format!("{sign}{written} is temporal: it says of {steps} what {written} says of one")
    };
    match action.head() {
        Token::BuiltIn(codes::SQUARE) => says("[]", "every step"),
        Token::BuiltIn(codes::ANGLE) => says("<>", "some step, sooner or later,"),
        _ => every_step(written),
    }
}

fn every_step(action: &str) -> String {
    format!("[][{action}]_v is temporal: every step satisfies it or leaves v as it is")
}
