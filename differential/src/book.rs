//! A second judge of what hangs on levels, as plain as can be: every level that a card is probed at worked out
//! by itself, and the causes 12, 13, 14, 16 and 21. The other causes of a file do not hang on levels, so the
//! reference is asked for them with all levels taken out. The rules may be misread on purpose.

use crate::accepted::LARGEST;
use crate::cards::{self, CARD, CARDS, MOST};
use crate::model::{Meaning, Model, Module, Operator, Scope};
use crate::rows;
use crate::syntax::{self, Expr, Field};
use std::rc::Rc;

/// Room for the parameters of a written substitute, the instance's and the operator's.
const SLOTS: usize = 2 * MOST;

const ENABLED: u8 = 113;

/// A wrong reading of request L5, L6 or L7.
#[derive(Clone, Copy, Debug, PartialEq, Eq)]
pub enum Misreading {
    /// Of a 2 and a 3 the highest is 3.
    NoMixing,
    /// Only arguments beside each other mix.
    NeighboursMix,
    /// Nothing mixes in a built-in of three arguments.
    NotInThree,
    /// Nothing mixes in a declared operator.
    NotInDeclared,
    /// Nothing mixes in a binder over a set.
    NotInBinders,
    /// What stands below ENABLED mixes with what stands beside it.
    ThroughEnabled,
    /// A card has one ceiling for each parameter: no pair is set.
    OneCeiling,
    /// A level query takes 3 for the highest of a 2 and a 3.
    NotInQueries,
    /// Cause 21 is not judged.
    NoTwentyOne,
    /// It is judged of modules that are not constant too, before 14, which would hold of them anyway.
    AnyModule,
    /// It is judged before 14.
    BeforeFourteen,
    /// It is judged after 16.
    AfterSixteen,
    /// Names that stand for themselves do not count for it.
    WrittenOnly,
    /// Names that no definition of the module uses do not count for it.
    UsedOnly,
    /// Only substitutes of names declared one after the other count for it.
    NeighboursOnly,
    /// It takes the instance's parameters at 2.
    ParametersAtTwo,
    /// It takes the arguments of an operator's substitute at 3.
    ArgumentsAtThree,
    /// It is judged of the names declared so far: a 12 or a 14 declared later is not seen.
    FirstCome,
    /// What earlier INSTANCEs of the same module put in counts for it too.
    EveryInstance,
    /// A brought definition at 4 is refused with 15, and before 21.
    FifteenFirst,
    /// A brought definition at 4 is refused with 12, as if it were a body.
    BroughtAsBody,
    /// What an INSTANCE brings decides alone: 15 if some of it is 4, and neither 14 nor 21.
    ByOutcome,
    /// A brought definition that is higher than in its own module is refused, if that is constant too.
    NoRise,
    /// One that is above the highest substitute is refused, if its own module is not constant too.
    NoneAbove,
    /// In a constant module, one that is above the highest substitute that is written is refused.
    NoneAboveWritten,
    /// One that is a 3 in its own module and no longer a 3 is refused.
    ThreeStays,
    /// One that is 4 with the instance's parameters at 2 is refused.
    BroughtOverParameters,
    /// A mask has every level up to the highest one taken.
    MaskIsCeiling,
    /// A mask never has 4, of a parameter that is not used either.
    FourNeverTaken,
    /// Parameters that there are not have full masks.
    MasksBeyond,
    /// Whatever is used weighs, though it does not raise the level.
    WeighsIfUsed,
    /// A 4 raises the level too, though it is not taken.
    FourWeighs,
    /// The first parameter has the highest bit of the weights.
    WeightsTurned,
    /// A pair is looked at with 2 for the first and 3 for the second only.
    ActionFirst,
    /// With 3 for the first and 2 for the second only.
    TemporalFirst,
    /// It has to give 4 both ways round.
    BothWays,
    /// It is set though one alone gives 4 already.
    PairsThoughAlone,
    /// Pairs are numbered by the first of the two.
    PairsByRow,
    /// The pairs are written with their low byte first.
    PairsLowFirst,
    /// The parameter count is the last byte, and the first is zero.
    CountLast,
}

/// Where levels meet.
#[derive(Clone, Copy, PartialEq, Eq)]
enum Meeting {
    BuiltIn(u8),
    Declared,
}

/// A body, where it is read, and the instances that brought it, the innermost first.
#[derive(Clone)]
struct Text {
    body: Rc<Expr>,
    scope: Rc<Scope>,
    chain: Vec<usize>,
}

/// An INSTANCE that was read.
struct Instance {
    /// How many modules had ended, and the module that it is of.
    place: (usize, u16),
    scope: Rc<Scope>,
    parameters: usize,
    with: Vec<(u16, Expr)>,
    /// The numbers of what it brings in its module, and of the first of them here.
    order: Vec<usize>,
    start: usize,
}

impl Instance {
    /// The expression written for a declared name, if it does not stand for itself.
    fn written(&self, declared: &Operator) -> Option<&Expr> {
        let mut found = self.with.iter().filter(|(name, _)| *name == declared.name);
        found.next().map(|(_, expr)| expr)
    }
}

/// An accepted file.
pub struct Book {
    misreading: Option<Misreading>,
    pub model: Model,
    texts: Vec<Text>,
    instances: Vec<Instance>,
}

/// The file with every level at 0 and of the same names and counts. What is left are the causes 2 to 11
/// and 16.
pub fn without_levels(file: &[u8]) -> Vec<u8> {
    fn plain(expr: &mut Expr) {
        if let Expr::BuiltIn(code, arguments) = expr {
            *code = match (*code, arguments.len()) {
                (112..=127, 1) => 16,
                (112..=127, _) => 48,
                (140.., _) => 128,
                _ => *code,
            };
        }
        expr.arguments_mut().iter_mut().for_each(plain);
    }
    let mut fields = syntax::fields(file);
    for field in &mut fields {
        field.expressions_mut().into_iter().for_each(plain);
        match field {
            Field::Variable(name) => *field = Field::Constant(*name, 0),
            Field::Assume(formula) => *field = Field::Theorem(formula.clone()),
            _ => (),
        }
    }
    syntax::file(&fields)
}

/// Judges a file. `None` if it is too near its largest size for the levels to be taken out.
pub fn judge(file: &[u8], misreading: Option<Misreading>) -> Option<Result<Book, (u32, u32)>> {
    if file.is_empty() || file.len() > LARGEST {
        return Some(Err((2, 0)));
    }
    let plain = without_levels(file);
    if plain.len() > LARGEST {
        return None;
    }
    let rest = reference::check(&plain, &mut vec![0; CARDS]).err();
    let rest = rest.map(|refusal| (refusal.number, refusal.place));
    let mut book = Book {
        misreading,
        model: Model::default(),
        texts: Vec::new(),
        instances: Vec::new(),
    };
    for (number, field) in syntax::fields(file).iter().enumerate() {
        let here = rest.filter(|&(_, place)| place as usize == number);
        if let Some(other) = here.filter(|&(cause, _)| cause != 16) {
            return Some(Err(other));
        }
        if let Some(cause) = book.field(field, here.is_some()) {
            return Some(Err((cause, number as u32)));
        }
    }
    // A file that ends inside a module has its place after the last field.
    Some(match rest {
        Some(other) => Err(other),
        None => Ok(book),
    })
}

impl Book {
    fn reads(&self, misreading: Misreading) -> bool {
        self.misreading == Some(misreading)
    }

    /// The causes of an INSTANCE that hang on levels, and 16, in the order in which they are judged; 15 is
    /// among them only where it is misread.
    fn order(&self, constant: bool) -> &'static [u32] {
        match self.misreading {
            Some(Misreading::AnyModule) if !constant => &[12, 21, 14, 16],
            Some(Misreading::BeforeFourteen) => &[12, 21, 14, 16],
            Some(Misreading::AfterSixteen) => &[12, 14, 16, 21],
            Some(Misreading::FifteenFirst) => &[12, 14, 15, 21, 16],
            Some(Misreading::ByOutcome) => &[12, 15, 16],
            Some(
                Misreading::NoRise
                | Misreading::NoneAbove
                | Misreading::NoneAboveWritten
                | Misreading::ThreeStays
                | Misreading::BroughtOverParameters,
            ) => &[12, 14, 21, 15, 16],
            _ => &[12, 14, 21, 16],
        }
    }

    /// What a misreading of L6 makes of the definitions that the last INSTANCE brings.
    fn misread_brought(&self, module: &Module) -> Option<u32> {
        let last = self.instances.last().expect("an INSTANCE");
        let zeros = [0; SLOTS];
        let highest = |written_only: bool| {
            let declared = module.scope.declared.iter();
            let counted = declared.filter(|each| !written_only || last.written(each).is_some());
            let levels = counted.map(|each| self.substitute(last, each, &zeros));
            rows::highest(&levels.collect::<Vec<_>>())
        };
        let holds = |place: usize, original: usize| {
            let number = last.start + place;
            let (own, brought) = (self.model.at_zero(original), self.model.at_zero(number));
            match self.misreading {
                Some(
                    Misreading::FifteenFirst | Misreading::BroughtAsBody | Misreading::ByOutcome,
                ) => brought == 4,
                Some(Misreading::NoRise) => brought > own,
                Some(Misreading::NoneAbove) => brought > highest(false),
                Some(Misreading::NoneAboveWritten) => module.constant && brought > highest(true),
                Some(Misreading::ThreeStays) => own == 3 && brought != 3,
                Some(Misreading::BroughtOverParameters) => {
                    let count = self.model.definitions[number].parameters as usize;
                    let mut levels = vec![0; count];
                    levels[..last.parameters].fill(2);
                    cards::read(self.model.card(number), &levels) == 4
                }
                _ => false,
            }
        };
        let mut order = last.order.iter().enumerate();
        let found = order.any(|(place, &original)| holds(place, original));
        found.then_some(match self.misreading {
            Some(Misreading::BroughtAsBody) => 12,
            _ => 15,
        })
    }

    /// Takes a field in and gives its cause, if it has one; `named` says that an INSTANCE has cause 16.
    fn field(&mut self, field: &Field, named: bool) -> Option<u32> {
        let scope = Rc::new(self.model.scope().cloned().unwrap_or_default());
        let first = self.texts.len();
        match field {
            Field::Definition(_, _, body) => self.texts.push(Text {
                body: Rc::new(body.clone()),
                scope: scope.clone(),
                chain: Vec::new(),
            }),
            Field::Instance {
                parameters,
                module,
                with,
                ..
            } => self.bring(&scope, *parameters, *module, with),
            _ => (),
        }
        self.model.add(field);
        (first..self.texts.len()).for_each(|number| self.fill(number));
        match field {
            Field::Definition(..) => (self.model.at_zero(first) == 4).then_some(12),
            Field::Assume(formula) | Field::Theorem(formula) => {
                match self.at_zero(formula, &scope) {
                    4 => Some(12),
                    1.. if matches!(field, Field::Assume(_)) => Some(13),
                    _ => None,
                }
            }
            Field::Instance { module, .. } => {
                let module = self.model.module(*module).expect("ended earlier");
                let mut holds = self.substitutes(module);
                holds.extend(self.misread_brought(module));
                holds.extend(named.then_some(16));
                let mut order = self.order(module.constant).iter().copied();
                order.find(|cause| holds.contains(cause))
            }
            _ => None,
        }
    }

    /// Takes in an INSTANCE and the texts that it brings.
    fn bring(&mut self, scope: &Rc<Scope>, parameters: u8, module: u16, with: &[(u16, Expr)]) {
        let place = (self.model.modules.len(), module);
        let module = self.model.module(module).expect("ended earlier");
        let order = module.scope.order.clone();
        for &number in &order {
            let mut text = self.texts[number].clone();
            text.chain.push(self.instances.len());
            self.texts.push(text);
        }
        self.instances.push(Instance {
            place,
            scope: scope.clone(),
            parameters: parameters.into(),
            with: with.to_vec(),
            start: self.texts.len() - order.len(),
            order,
        });
    }

    /// Those of the causes 12, 14 and 21 that the substitutes of the last INSTANCE have.
    fn substitutes(&self, module: &Module) -> Vec<u32> {
        let last = self.instances.last().expect("an INSTANCE");
        let zeros = [0; SLOTS];
        let mut counted_at = zeros;
        match self.misreading {
            Some(Misreading::ParametersAtTwo) => counted_at[..last.parameters].fill(2),
            Some(Misreading::ArgumentsAtThree) => counted_at[last.parameters..].fill(3),
            _ => (),
        }
        let (mut holds, mut counted) = (Vec::new(), Vec::new());
        if self.reads(Misreading::EveryInstance) {
            let same = |by: &&Instance| by.place == last.place;
            for by in self.instances.iter().filter(same) {
                let declared = module.scope.declared.iter();
                counted.extend(declared.map(|declared| self.substitute(by, declared, &zeros)));
            }
        }
        for declared in &module.scope.declared {
            let at_zero = self.substitute(last, declared, &zeros);
            let most = match declared.meaning {
                _ if declared.count > 0 => 0,
                _ if module.constant => 3,
                Meaning::Variable(_) => 1,
                _ => 0,
            };
            holds.extend((at_zero == 4).then_some(12));
            holds.extend((at_zero > most).then_some(14));
            let seen = match self.misreading {
                Some(Misreading::WrittenOnly) => last.written(declared).is_some(),
                Some(Misreading::UsedOnly) => self.uses(module, declared),
                _ => true,
            };
            counted.extend(seen.then(|| self.substitute(last, declared, &counted_at)));
            let so_far = module.constant && rows::mixed(&counted);
            if so_far && self.reads(Misreading::FirstCome) {
                break;
            }
        }
        let mixed = match self.misreading {
            Some(Misreading::NoTwentyOne) => false,
            Some(Misreading::NeighboursOnly) => counted.windows(2).any(rows::mixed),
            _ => rows::mixed(&counted),
        };
        let any = module.constant || self.reads(Misreading::AnyModule);
        holds.extend((mixed && any).then_some(21));
        holds
    }

    /// The level of what an INSTANCE puts in for a declared name, over these levels of the instance's
    /// parameters and then of the name's own arguments.
    fn substitute(&self, by: &Instance, declared: &Operator, levels: &[u8; SLOTS]) -> u8 {
        match by.written(declared) {
            Some(expr) => self.level(expr, &by.scope, &[], levels, &mut Vec::new()),
            None => {
                let same = by.scope.operator(declared.name).expect("known");
                let own = &levels[by.parameters..][..same.count as usize];
                self.apply(same, &[], &[], own)
            }
        }
    }

    /// Whether a definition of the module uses a name that it declares.
    fn uses(&self, module: &Module, declared: &Operator) -> bool {
        fn holds(expr: &Expr, name: u16) -> bool {
            matches!(expr, Expr::Name(own, _) if *own == name)
                || expr.arguments().iter().any(|part| holds(part, name))
        }
        let mut order = module.scope.order.iter();
        order.any(|&number| holds(&self.texts[number].body, declared.name))
    }

    /// Works out the card of a definition.
    fn fill(&mut self, number: usize) {
        let count = self.model.definitions[number].parameters as usize;
        let level = |levels: &[u8]| self.definition(number, levels);
        let card = cards::write(count, self.misreading, level);
        self.model.cards[CARD * number..][..CARD].copy_from_slice(&card);
    }

    fn definition(&self, number: usize, levels: &[u8]) -> u8 {
        let Text { body, scope, chain } = &self.texts[number];
        self.level(body, scope, chain, levels, &mut Vec::new())
    }

    fn at_zero(&self, expr: &Expr, scope: &Scope) -> u8 {
        self.level(expr, scope, &[], &[0; SLOTS], &mut Vec::new())
    }

    /// The level of a query's expression at the end of a module, whose names and counts are right.
    pub fn query(self, module: u16, expr: &Expr, levels: &[u8]) -> u8 {
        let misreading = match self.misreading {
            Some(Misreading::NotInQueries) => Some(Misreading::NoMixing),
            other => other,
        };
        let book = Book { misreading, ..self };
        let scope = &book.model.module(module).expect("a module").scope;
        book.level(expr, scope, &[], levels, &mut Vec::new())
    }

    /// Parameters of the instances that brought a text.
    fn parameters(&self, chain: &[usize]) -> usize {
        chain.iter().map(|&by| self.instances[by].parameters).sum()
    }

    /// The level of a text that a chain of instances brought, over the levels of their parameters, the
    /// outermost first, and then its own.
    fn level(
        &self,
        expr: &Expr,
        scope: &Scope,
        chain: &[usize],
        levels: &[u8],
        binders: &mut Vec<u8>,
    ) -> u8 {
        let operator = match expr {
            Expr::Parameter(index) => return levels[self.parameters(chain) + *index as usize],
            Expr::Bound(index) => return binders[binders.len() - 1 - *index as usize],
            Expr::Literal(_) => return 0,
            Expr::BuiltIn(code, arguments) => {
                let row = rows::row(*code).expect("a code");
                let (mut given, mut below) = (Vec::new(), Vec::new());
                for (at, argument) in arguments.iter().enumerate() {
                    let binds = row.binds_in(at);
                    binders.extend(binds);
                    given.push(self.level(argument, scope, chain, levels, binders));
                    if self.reads(Misreading::ThroughEnabled) {
                        if let Expr::BuiltIn(ENABLED, action) = argument {
                            below.push(self.level(&action[0], scope, chain, levels, binders));
                        }
                    }
                    if binds.is_some() {
                        binders.pop();
                    }
                }
                let mut taken = given.iter().zip(row.takes);
                return match row.gives {
                    _ if !taken.all(|(level, takes)| takes >> level & 1 == 1) => 4,
                    Some(level) => level,
                    None if below.contains(&2) && given.contains(&3) => 4,
                    None => self.highest(Meeting::BuiltIn(*code), &given),
                };
            }
            Expr::Name(name, _) => scope.operator(*name),
            Expr::Brought(instance, name, _) => scope.brought(*instance, *name),
        };
        let given: Vec<u8> = expr
            .arguments()
            .iter()
            .map(|argument| self.level(argument, scope, chain, levels, binders))
            .collect();
        self.apply(operator.expect("known"), chain, levels, &given)
    }

    /// The level of an operator over arguments of these levels, where a chain of instances brought it.
    fn apply(&self, operator: &Operator, chain: &[usize], levels: &[u8], given: &[u8]) -> u8 {
        let all = [&levels[..self.parameters(chain)], given].concat();
        match (operator.meaning, chain.split_first()) {
            (Meaning::Defined(number), _) => {
                let brought = |number: usize, &by: &usize| {
                    let Instance { order, start, .. } = &self.instances[by];
                    let place = order.iter().position(|&each| each == number);
                    start + place.expect("brought with the rest")
                };
                let number = chain.iter().fold(number, brought);
                cards::read(self.model.card(number), &all)
            }
            (Meaning::Variable(_), None) => 1,
            (Meaning::Constant(_), None) => self.highest(Meeting::Declared, given),
            (_, Some((&by, outer))) => {
                let by = &self.instances[by];
                match by.written(operator) {
                    Some(expr) => self.level(expr, &by.scope, outer, &all, &mut Vec::new()),
                    None => {
                        let same = by.scope.operator(operator.name).expect("known");
                        self.apply(same, outer, levels, given)
                    }
                }
            }
        }
    }

    fn highest(&self, meeting: Meeting, levels: &[u8]) -> u8 {
        let mixed = match (self.misreading, meeting) {
            (Some(Misreading::NoMixing), _) => false,
            (Some(Misreading::NeighboursMix), _) => levels.windows(2).any(rows::mixed),
            (Some(Misreading::NotInThree), Meeting::BuiltIn(96..=103)) => false,
            (Some(Misreading::NotInDeclared), Meeting::Declared) => false,
            (Some(Misreading::NotInBinders), Meeting::BuiltIn(132..=139)) => false,
            _ => rows::mixed(levels),
        };
        match mixed {
            true => 4,
            false => levels.iter().copied().max().unwrap_or(0),
        }
    }
}

#[cfg(test)]
mod tests {
    use super::*;
    use crate::syntax::{always, instance, n, p, prime};

    /// Without L5 there would be no L6. Were a 2 beside a 3 a 3, an operator that takes the 2 alone would
    /// make a 2 of the 3; and below [], which takes no 2, a 4.
    #[test]
    fn lawful_instances_need_kinds_kept_apart() {
        const K: u16 = 1;
        const U: u16 = 2;
        const D: u16 = 3;
        let file = |around: fn(Expr) -> Expr| {
            let u = || n(U, &[]);
            syntax::file(&[
                Field::Module(1),
                Field::Constant(K, 2),
                Field::Variable(U),
                Field::Definition(D, 0, around(n(K, &[prime(u()), always(u())]))),
                Field::End,
                Field::Module(2),
                Field::Variable(U),
                instance(0, 0, 1, &[(K, p(0))]),
                Field::End,
            ])
        };
        for (around, brought) in [((|body| body) as fn(Expr) -> Expr, 2), (always, 4)] {
            let file = file(around);
            let judged = judge(&file, None).expect("small");
            assert_eq!(judged.err(), Some((12, 3)));
            let Some(Ok(book)) = judge(&file, Some(Misreading::NoMixing)) else {
                panic!("accepted by the misreading");
            };
            assert_eq!(book.model.at_zero(0), 3);
            assert_eq!(book.model.at_zero(1), brought);
        }
    }
}
