//! Where level 4 comes from: the innermost expression that has it, and what stands in it.

use crate::probe::{expansion, level, unused};
use notation::{codes, Expr, Field, Token};

/// An expression, as it stands in the field and as the archive is asked about it.
#[derive(Clone)]
pub struct Part {
    written: Expr,
    /// With something of the same level for each variable of a binder around it.
    asked: Expr,
    /// As far as the archive tells.
    pub level: Option<u8>,
    /// For each binder before it in the field's expression, whether it stands under that.
    binders: Vec<bool>,
}

impl Part {
    /// Whether it is a name, a parameter or the like by itself.
    pub fn alone(&self) -> bool {
        self.written.tokens().len() == 1
    }

    pub fn head(&self) -> Token {
        self.written.tokens()[0]
    }

    pub fn written(&self) -> &Expr {
        &self.written
    }

    pub fn binders(&self) -> &[bool] {
        &self.binders
    }

    /// For each argument, the binders before it: this one, then those in earlier arguments.
    fn binders_before(&self, arguments: &[Expr]) -> Vec<Vec<bool>> {
        let own = usize::from(binds(&self.head()));
        let mut inside = 0;
        let each = arguments.iter().enumerate().map(|(at, argument)| {
            let mut binders = self.binders.clone();
            binders.extend(vec![at + 1 == arguments.len(); own]);
            binders.extend(vec![false; inside]);
            inside += argument.tokens().iter().filter(|each| binds(each)).count();
            binders
        });
        each.collect()
    }
}

/// The innermost expression at level 4.
pub struct Innermost {
    pub whole: Part,
    pub arguments: Vec<Part>,
    pub mixed: Option<Mixed>,
    /// The first argument that is not taken by itself.
    pub not_taken: Option<usize>,
}

/// An action and a temporal formula in one expression.
pub enum Mixed {
    /// Two arguments, each of them taken by itself, the two together not.
    Arguments([Part; 2]),
    /// An argument, and what stands beside it in the body of the operator that is called.
    Body(InBody),
}

/// An argument that an operator puts beside what is in its body.
pub struct InBody {
    /// At level 2 or 3.
    pub argument: Part,
    /// The places of the argument and of those like it.
    pub places: Vec<usize>,
    /// The level of the call, 3 or 2, with a literal for these.
    pub without: u8,
    /// What the body joins the two by.
    pub joined: Token,
}

/// Follows level 4 from an expression, with parameters at these levels, to the innermost one that
/// has it.
pub fn innermost(before: &[Field], levels: &[u8], body: &Expr) -> Option<Innermost> {
    let mut place = Place {
        before: before.to_vec(),
        levels,
    };
    let mut here = place.part(body.clone(), body.clone(), Vec::new());
    if here.level? != 4 {
        return None;
    }
    loop {
        let arguments = place.enter(&here);
        let head = here.head();
        // One that the operator drops is at no fault.
        let next = (0..arguments.len()).find(|&at| {
            arguments[at].level == Some(4) && place.takes(head, &arguments, &[at]) != Some(true)
        });
        let Some(next) = next else {
            let mixed = place.mixed(&here, &arguments);
            let mut each = 0..arguments.len();
            let not_taken = each.find(|&at| place.takes(head, &arguments, &[at]) == Some(false));
            return Some(Innermost {
                whole: here,
                arguments,
                mixed,
                not_taken,
            });
        };
        here = arguments[next].clone();
    }
}

/// The fields before an expression, and what it is over.
struct Place<'l> {
    before: Vec<Field>,
    /// Of its parameters.
    levels: &'l [u8],
}

impl Place<'_> {
    fn level(&self, expression: &Expr) -> Option<u8> {
        level(&self.before, self.levels, expression)
    }

    fn part(&self, written: Expr, asked: Expr, binders: Vec<bool>) -> Part {
        let level = self.level(&asked);
        Part {
            written,
            asked,
            level,
            binders,
        }
    }

    /// The arguments of an expression, given what the archive is asked of each.
    fn parts(&self, whole: &Part, asked: Vec<Expr>) -> Vec<Part> {
        let written = arguments(&whole.written);
        let binders = whole.binders_before(&written);
        let each = written.into_iter().zip(asked).zip(binders);
        each.map(|((written, asked), binders)| self.part(written, asked, binders))
            .collect()
    }

    /// The arguments of an expression, with something for the variable if it is a binder: a
    /// literal, or under a temporal binder, whose variable is a state, a variable of the module.
    fn enter(&mut self, whole: &Part) -> Vec<Part> {
        let mut asked = arguments(&whole.asked);
        match whole.head() {
            Token::BuiltIn(code) if codes::binds(code) => {
                let variable = (code >= codes::TEMPORAL_BINDERS)
                    .then(|| unused(&self.before, &whole.asked))
                    .flatten();
                let instead = match variable {
                    Some(name) => Token::Name { name, arguments: 0 },
                    None => Token::Literal(0),
                };
                self.before
                    .extend(variable.map(|name| Field::Variable { name }));
                if let Some(body) = asked.last_mut() {
                    *body = replaced(body, instead);
                }
            }
            _ => {}
        }
        self.parts(whole, asked)
    }

    /// The level of a call of some of the arguments, a literal being put for every other.
    fn level_of(&self, head: Token, arguments: &[Part], kept: &[usize]) -> Option<u8> {
        let literal = Expr::new(Token::Literal(0), &[]).ok()?;
        let each = arguments.iter().enumerate();
        let asked = each.map(|(at, argument)| match kept.contains(&at) {
            true => argument.asked.clone(),
            false => literal.clone(),
        });
        let asked: Vec<Expr> = asked.collect();
        self.level(&Expr::new(head, &asked).ok()?)
    }

    /// Whether some arguments are taken.
    fn takes(&self, head: Token, arguments: &[Part], kept: &[usize]) -> Option<bool> {
        Some(self.level_of(head, arguments, kept)? != 4)
    }

    fn mixed(&self, whole: &Part, arguments: &[Part]) -> Option<Mixed> {
        match self.mixed_arguments(whole.head(), arguments) {
            Some(pair) => Some(Mixed::Arguments(pair)),
            None => self.mixed_in_body(whole, arguments).map(Mixed::Body),
        }
    }

    /// Two arguments at 2 and 3 that are taken each without the other, and not together.
    fn mixed_arguments(&self, head: Token, arguments: &[Part]) -> Option<[Part; 2]> {
        let at = |level| at_level(arguments, level);
        let mut pairs = at(2).flat_map(|action| at(3).map(move |temporal| [action, temporal]));
        let takes = |kept: &[usize]| self.takes(head, arguments, kept);
        let pair = pairs.find(|pair| {
            let each = pair.iter().all(|&one| takes(&[one]) == Some(true));
            each && takes(pair) == Some(false)
        })?;
        Some(pair.map(|at| self.of_junction(&arguments[at])))
    }

    /// An argument without which the call has the other of 2 and 3. Cards do not tell whether the
    /// two meet: `x' = 1 /\ ENABLED a` has that of `x' = 1 /\ a`. So the expansion is looked at.
    fn mixed_in_body(&self, whole: &Part, arguments: &[Part]) -> Option<InBody> {
        let expanded = expansion(&self.before, self.levels.len(), &whole.asked)?;
        // A declared operator has no body.
        if expanded.tokens()[0] == whole.head() {
            return None;
        }
        let inner = innermost(&self.before, self.levels, &expanded)?;
        inner.mixed?;
        let alone = (0..arguments.len()).map(|at| vec![at]);
        let alike = [2, 3].map(|level| at_level(arguments, level).collect());
        let (places, without) = alone.chain(alike).find_map(|places| {
            let without = self.level_without(whole.head(), arguments, &places)?;
            Some((places, without))
        })?;
        Some(InBody {
            argument: self.of_junction(&arguments[places[0]]),
            places,
            without,
            joined: inner.whole.head(),
        })
    }

    /// The level of a call with literals for arguments that do not mix with it.
    fn level_without(&self, head: Token, arguments: &[Part], places: &[usize]) -> Option<u8> {
        let other = match arguments[*places.first()?].level? {
            2 => 3,
            3 => 2,
            _ => return None,
        };
        let kept = (0..arguments.len()).filter(|at| !places.contains(at));
        let kept: Vec<usize> = kept.collect();
        let without = self.level_of(head, arguments, &kept)?;
        (without == other).then_some(without)
    }

    /// Of a conjunction the part that has its level, if only one has: what is left is a state, and
    /// may stand beside either. Of two, or of a disjunction, a part alone says something else.
    fn of_junction(&self, whole: &Part) -> Part {
        let mut here = whole.clone();
        while here.head() == Token::BuiltIn(codes::AND) {
            let parts = self.parts(&here, arguments(&here.asked)).into_iter();
            let mut high = parts.filter(|part| part.level == whole.level);
            match (high.next(), high.next()) {
                (Some(part), None) => here = part,
                _ => break,
            }
        }
        here
    }
}

/// The places of the arguments that have a level.
fn at_level(arguments: &[Part], level: u8) -> impl Iterator<Item = usize> + '_ {
    (0..arguments.len()).filter(move |&at| arguments[at].level == Some(level))
}

fn binds(token: &Token) -> bool {
    matches!(token, Token::BuiltIn(code) if codes::binds(*code))
}

/// The arguments of an expression's first token.
fn arguments(whole: &Expr) -> Vec<Expr> {
    let tokens = whole.tokens();
    let mut parts = Vec::new();
    let mut start = 1;
    while start < tokens.len() {
        let mut wanted = 1;
        let mut end = start;
        while wanted > 0 && end < tokens.len() {
            wanted += tokens[end].arguments().unwrap_or(0);
            wanted -= 1;
            end += 1;
        }
        parts.extend(Expr::from_tokens(tokens[start..end].to_vec()));
        start = end;
    }
    parts
}

/// The body of a binder with its variable replaced.
fn replaced(body: &Expr, instead: Token) -> Expr {
    // For each token that is still to come, the number of binders around it.
    let mut waiting = vec![0u16];
    let mut tokens = Vec::with_capacity(body.tokens().len());
    for &token in body.tokens() {
        let depth = waiting.pop().unwrap_or(0);
        let count = token.arguments().unwrap_or(0);
        let binds = binds(&token);
        for place in (0..count).rev() {
            let inside = binds && place + 1 == count;
            waiting.push(depth.saturating_add(u16::from(inside)));
        }
        tokens.push(match token {
            Token::Bound(index) if index == depth => instead,
            Token::Bound(index) if index > depth => Token::Bound(index - 1),
            _ => token,
        });
    }
    Expr::from_tokens(tokens).unwrap_or_else(|_| body.clone())
}
