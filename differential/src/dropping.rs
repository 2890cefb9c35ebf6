//! Chains of instances by which arguments of declared operators are dropped: accepted files that have them, and
//! what of it a file has.

use crate::accepted::{Grower, Grown};
use crate::cards::{self, MOST};
use crate::cases::Call;
use crate::model::{Meaning, Model, Module, Operator, Scope};
use crate::random::Random;
use crate::syntax::{always, and, b, lit, n, op, p, prime, Expr, Field};
use std::collections::BTreeSet;

/// What occurs, besides an argument dropped of each number of them.
const KINDS: [&str; 21] = [
    "chain of fifteen modules",
    "written substitute that drops",
    "written substitute that drops all",
    "written substitute that drops by what it calls",
    "written substitute that drops, beside parameters",
    "definition that stands for itself and drops",
    "substitute over the name it stands for",
    "two names, each in the other's substitute",
    "dropped at two levels of a chain",
    "dropped at three levels of a chain",
    "dropped at six levels of a chain",
    "dropped in two ways by instances in one module",
    "dropped in two ways by instances in two modules",
    "parameter lost by being brought",
    "parameter lost at two levels of a chain",
    "parameter lost by one instance and kept by another",
    "constant of one name in two modules",
    "variable of one name in two modules",
    "operator of one name in two modules",
    "variable where the name was a constant, written",
    "constant where the name was a variable, written",
];

/// Everything that has to occur.
pub fn labels() -> Vec<String> {
    let counts = (1..=MOST).map(|count| format!("operator of {count}, an argument dropped"));
    KINDS.map(String::from).into_iter().chain(counts).collect()
}

/// What is known of the definitions and INSTANCEs of a file, as its fields come.
#[derive(Default)]
struct Seen {
    kinds: BTreeSet<String>,
    /// For each definition: from which one it was brought, at how many instances on its way arguments were
    /// dropped, and at how many a parameter was lost.
    sources: Vec<Option<usize>>,
    dropped: Vec<usize>,
    lost: Vec<usize>,
    /// For each INSTANCE: the module it stands in, the one it is of, and what it drops of each operator.
    instances: Vec<(usize, u16, Vec<BTreeSet<u8>>)>,
    declared: Vec<(usize, Operator)>,
}

/// What an accepted file has of it.
pub fn seen(fields: &[Field], cards: &[u8]) -> BTreeSet<String> {
    let mut model = Model::default();
    model.cards[..cards.len()].copy_from_slice(cards);
    let mut seen = Seen::default();
    for field in fields {
        let none = Scope::default();
        let scope = model.scope().unwrap_or(&none);
        if let Field::Instance {
            parameters,
            module,
            with,
            ..
        } = field
        {
            if let Some(module) = model.module(*module) {
                seen.instance(&model, scope, module, *parameters, with);
            }
        }
        model.add(field);
        seen.grow(model.definitions.len());
        let declares = matches!(field, Field::Constant(..) | Field::Variable(_));
        if let Some(scope) = model.scope().filter(|_| declares) {
            seen.declared
                .extend(scope.declared.last().map(|&one| (model.modules.len(), one)));
        }
    }
    seen.across();
    seen.kinds
}

/// The parameters of an expression that are not dropped by what it calls.
fn used(model: &Model, scope: &Scope, expr: &Expr, into: &mut BTreeSet<u8>) {
    let called = match expr {
        Expr::Parameter(index) => {
            into.insert(*index);
            None
        }
        Expr::Name(name, _) => scope.operator(*name),
        Expr::Brought(instance, name, _) => scope.brought(*instance, *name),
        _ => None,
    };
    for (at, argument) in expr.arguments().iter().enumerate() {
        if !called.is_some_and(|operator| model.drops(operator, at)) {
            used(model, scope, argument, into);
        }
    }
}

fn names(expr: &Expr, name: u16) -> bool {
    let own = matches!(expr, Expr::Name(other, _) if *other == name);
    own || expr.arguments().iter().any(|part| names(part, name))
}

fn holds(expr: &Expr, parameter: u8) -> bool {
    *expr == p(parameter) || expr.arguments().iter().any(|part| holds(part, parameter))
}

impl Seen {
    fn note(&mut self, what: &str) {
        debug_assert!(KINDS.contains(&what), "{what}");
        self.kinds.insert(what.into());
    }

    /// Definitions that were not brought.
    fn grow(&mut self, count: usize) {
        self.sources.resize(count, None);
        self.dropped.resize(count, 0);
        self.lost.resize(count, 0);
    }

    fn instance(
        &mut self,
        model: &Model,
        scope: &Scope,
        module: &Module,
        parameters: u8,
        with: &[(u16, Expr)],
    ) {
        let find = |name: u16| {
            with.iter()
                .find(|(of, _)| *of == name)
                .map(|(_, expr)| expr)
        };
        let mut drops = Vec::new();
        for declared in &module.scope.declared {
            let name = declared.name;
            let dropped = match find(name) {
                Some(expr) => self.written(model, scope, declared, parameters, expr),
                None => self.implied(model, scope, declared),
            };
            if let Some(expr) = find(name) {
                let other = |of: u16| names(expr, of) && find(of).is_some_and(|e| names(e, name));
                if module
                    .scope
                    .declared
                    .iter()
                    .any(|one| one.name != name && other(one.name))
                {
                    self.note("two names, each in the other's substitute");
                }
            }
            if !dropped.is_empty() {
                let count = declared.count;
                self.kinds
                    .insert(format!("operator of {count}, an argument dropped"));
            }
            drops.push(dropped);
        }
        let drop = drops.iter().any(|dropped| !dropped.is_empty());
        for &source in &module.scope.order {
            self.brought(model, source, parameters as usize, drop);
        }
        self.instances
            .push((model.modules.len(), module.name, drops));
    }

    /// What a written substitute drops of its operator's arguments.
    fn written(
        &mut self,
        model: &Model,
        scope: &Scope,
        declared: &Operator,
        parameters: u8,
        expr: &Expr,
    ) -> BTreeSet<u8> {
        let mut kept = BTreeSet::new();
        used(model, scope, expr, &mut kept);
        let arguments = parameters..parameters + declared.count;
        let dropped: BTreeSet<u8> = arguments.filter(|at| !kept.contains(at)).collect();
        if names(expr, declared.name) {
            self.note("substitute over the name it stands for");
        }
        let stands = scope.operator(declared.name).map(|one| one.meaning);
        match (declared.meaning, stands) {
            (Meaning::Constant(_), Some(Meaning::Variable(_))) => {
                self.note("variable where the name was a constant, written");
            }
            (Meaning::Variable(_), Some(Meaning::Constant(_))) => {
                self.note("constant where the name was a variable, written");
            }
            _ => (),
        }
        if !dropped.is_empty() {
            self.note("written substitute that drops");
            if parameters > 0 {
                self.note("written substitute that drops, beside parameters");
            }
            if dropped.len() == declared.count as usize && declared.count > 1 {
                self.note("written substitute that drops all");
            }
            if dropped.iter().any(|&at| holds(expr, at)) {
                self.note("written substitute that drops by what it calls");
            }
        }
        dropped.into_iter().map(|at| at - parameters).collect()
    }

    /// What an operator that stands for itself drops.
    fn implied(&mut self, model: &Model, scope: &Scope, declared: &Operator) -> BTreeSet<u8> {
        let Some(stands) = scope.operator(declared.name) else {
            return BTreeSet::new();
        };
        let arguments = 0..declared.count;
        let dropped: BTreeSet<u8> = arguments
            .filter(|&at| model.drops(stands, at as usize))
            .collect();
        if !dropped.is_empty() {
            self.note("definition that stands for itself and drops");
        }
        dropped
    }

    fn brought(&mut self, model: &Model, source: usize, parameters: usize, drop: bool) {
        let number = self.sources.len();
        let (before, after) = (model.card(source), model.card(number));
        let mut own = 0..before[0] as usize;
        let lost = own.any(|at| !cards::drops(before, at) && cards::drops(after, parameters + at));
        self.sources.push(Some(source));
        self.dropped.push(self.dropped[source] + usize::from(drop));
        self.lost.push(self.lost[source] + usize::from(lost));
        if model.definitions[source].chain + 1 >= 14 {
            self.note("chain of fifteen modules");
        }
        for (least, what) in [(2, "two"), (3, "three"), (6, "six")] {
            if self.dropped[number] >= least {
                self.note(&format!("dropped at {what} levels of a chain"));
            }
        }
        if lost {
            self.note("parameter lost by being brought");
            if self.lost[number] > 1 {
                self.note("parameter lost at two levels of a chain");
            }
        }
    }

    /// What only several fields show.
    fn across(&mut self) {
        for (first, second) in cards::pairs(self.instances.len()) {
            let [(left, of, one), (right, other, two)] =
                [&self.instances[first], &self.instances[second]];
            if of != other || one == two {
                continue;
            }
            let what = if left == right {
                "one module"
            } else {
                "two modules"
            };
            self.note(&format!("dropped in two ways by instances in {what}"));
        }
        for (first, second) in cards::pairs(self.sources.len()) {
            let (one, two) = (self.sources[first], self.sources[second]);
            let of = one.filter(|_| one == two);
            if of.is_some_and(|source| {
                let lost = |number: usize| self.lost[number] > self.lost[source];
                lost(first) != lost(second)
            }) {
                self.note("parameter lost by one instance and kept by another");
            }
        }
        for (first, second) in cards::pairs(self.declared.len()) {
            let ((left, one), (right, two)) = (self.declared[first], self.declared[second]);
            if left == right || (one.name, one.count) != (two.name, two.count) {
                continue;
            }
            match (one.meaning, two.meaning) {
                (Meaning::Variable(_), Meaning::Variable(_)) => {
                    self.note("variable of one name in two modules");
                }
                (Meaning::Constant(_), Meaning::Constant(_)) if one.count == 0 => {
                    self.note("constant of one name in two modules");
                }
                (Meaning::Constant(_), Meaning::Constant(_)) => {
                    self.note("operator of one name in two modules");
                }
                _ => (),
            }
        }
    }
}

/// Most bytes of a file: it is judged by the book as well.
const LIMIT: usize = 4_000;

/// A name that the modules of a file declare.
#[derive(Clone, Copy)]
struct Declared {
    name: u16,
    count: u8,
    variable: bool,
}

impl Declared {
    fn field(self) -> Field {
        match self.variable {
            true => Field::Variable(self.name),
            false => Field::Constant(self.name, self.count),
        }
    }
}

/// Grows an accepted file of modules that each bring another, whose operators become others that use some of their
/// arguments; and asks of what it brought last.
pub fn grow_dropping(random: &mut Random) -> (Grown, Vec<Call>) {
    let modules = random.pick(&[3, 3, 3, 4, 4, 5, 6, 8, 15, 16]);
    let names = declared(random, modules);
    let mut grower = Grower::new(random, 600);
    for module in 1..modules {
        grower.dropping_module(module, &names, modules > 8);
    }
    grower.dropping_end(modules, &names);
    let calls = grower.dropping_calls(modules);
    (grower.grown(), calls)
}

/// The names of a file, few enough for all its modules.
fn declared(random: &mut Random, modules: u16) -> Vec<Declared> {
    let mut names = Vec::new();
    for name in 1..=1 + random.below(if modules > 8 { 2 } else { 3 }) as u16 {
        let count = random.pick(&[1, 2, 2, 2, 3, 3, 4, 5, 6, 7, 8]);
        names.push((name, count, false));
    }
    names.push((4, 0, false));
    if random.chance(65) {
        names.push((5, 0, true));
    }
    let each = names.into_iter();
    each.map(|(name, count, variable)| Declared {
        name,
        count,
        variable,
    })
    .collect()
}

impl Grower<'_> {
    /// The names, but those that an instance of this module brings.
    fn dropping_names(&self, names: &[Declared], of: u16) -> Vec<Declared> {
        let scope = self.model.module(of).map(|module| &module.scope);
        let defined = |name: u16| {
            let mut order = scope.iter().flat_map(|scope| &scope.order);
            order.any(|&number| self.model.definitions[number].name == name)
        };
        let each = names.iter().copied();
        each.filter(|declared| !defined(declared.name)).collect()
    }

    /// A module that declares most of the names, brings a module before it, and has definitions of its own. In a
    /// long chain each brings the one before, and few of the names become definitions.
    fn dropping_module(&mut self, module: u16, names: &[Declared], long: bool) {
        self.keep(Field::Module(module));
        let of = match self.random.below(8) {
            0 if !long && module > 1 => 1 + self.random.below(module as usize - 1) as u16,
            _ => module - 1,
        };
        for declared in self.dropping_names(names, of) {
            let field = match self.random.below(if long { 80 } else { 20 }) {
                _ if module == 1 => declared.field(),
                0..=2 if declared.count > 0 => {
                    let body = self.dropping_substitute(0, declared.count);
                    Field::Definition(declared.name, declared.count, body)
                }
                // Another kind, or another number of arguments.
                0..=3 => Declared {
                    variable: !declared.variable && declared.count == 0,
                    count: declared.count.saturating_sub(1),
                    ..declared
                }
                .field(),
                4 => continue,
                _ => declared.field(),
            };
            self.propose(field, LIMIT);
        }
        if module == 1 {
            for name in 10..=10 + self.random.below(3) as u16 {
                let field = self.dropping_definition(name);
                self.propose(field, LIMIT);
            }
        } else {
            self.dropping_instance(0, of);
        }
        if self.random.chance(if long { 10 } else { 50 }) {
            let field = self.dropping_definition(20 + module);
            self.propose(field, LIMIT);
        }
        self.keep(Field::End);
    }

    /// The last module: instances of the one before, and of others, each with substitutes of its own.
    fn dropping_end(&mut self, module: u16, names: &[Declared]) {
        self.keep(Field::Module(module));
        for declared in names {
            if self.random.chance(60) {
                self.propose(declared.field(), LIMIT);
            }
        }
        if self.random.chance(70) {
            self.propose(Field::Variable(6), LIMIT);
        }
        for name in 50..52 + self.random.below(3) as u16 {
            let of = match self.random.below(4) {
                0 => 1 + self.random.below(module as usize - 1) as u16,
                _ => module - 1,
            };
            self.dropping_instance(name, of);
        }
        let field = self.definition();
        self.propose(field, LIMIT);
        self.keep(Field::End);
    }

    /// An INSTANCE of a module, tried again with other substitutes if it is not lawful, at last with plain ones.
    fn dropping_instance(&mut self, name: u16, of: u16) {
        let Some(module) = self.model.module(of).cloned() else {
            return;
        };
        for attempt in 0..8 {
            let parameters = match name {
                0 => 0,
                _ => self.random.pick(&[0, 0, 0, 1, 1, 2, 4]),
            };
            let mut with = Vec::new();
            for declared in &module.scope.declared {
                let scope = self.model.scope().expect("inside a module");
                let same = scope.operator(declared.name);
                let stands = same.is_some_and(|operator| operator.count == declared.count);
                if stands && self.random.chance(40) {
                    continue;
                }
                let most = match declared.meaning {
                    Meaning::Variable(_) => 1,
                    _ if module.constant => self.random.pick(&[0, 1, 2, 3]),
                    _ => 0,
                };
                let substitute = match declared.count {
                    count if attempt == 7 => {
                        (0..count).map(|at| p(parameters + at)).fold(lit(0), and)
                    }
                    0 => self.expression(parameters as usize, most, 2),
                    count => self.dropping_substitute(parameters, count),
                };
                with.push((declared.name, substitute));
            }
            let field = Field::Instance {
                name,
                parameters,
                module: of,
                with,
            };
            if self.propose(field, LIMIT) {
                return;
            }
        }
    }

    /// A substitute that uses some of its operator's arguments, now and then all, below built-ins or in a call.
    fn dropping_substitute(&mut self, parameters: u8, count: u8) -> Expr {
        let scope = self.model.scope().expect("inside a module");
        let operators = scope.operators.iter().copied();
        let mut called: Vec<Operator> = operators.filter(|one| one.count > 0).collect();
        let mut parts: Vec<Expr> = (0..count).map(|at| p(parameters + at)).collect();
        match self.random.below(4) {
            0 => (),
            1 | 2 => drop(parts.remove(self.random.below(count as usize))),
            _ => parts.retain(|_| self.random.chance(50)),
        }
        if parameters > 0 && self.random.chance(40) {
            parts.push(p(self.random.below(parameters as usize) as u8));
        }
        if self.random.chance(30) {
            parts.push(self.expression(parameters as usize, 0, 1));
        }
        self.random.shuffle(&mut parts);
        // Most often there is room for all that is used.
        if self.random.chance(70) {
            called.retain(|one| one.count as usize >= parts.len());
        }
        if !called.is_empty() && self.random.chance(60) {
            let operator = self.random.pick(&called);
            let argument = |at: usize| parts.get(at).cloned().unwrap_or(lit(at as u16));
            let arguments = (0..operator.count as usize).map(argument).collect();
            return Expr::Name(operator.name, arguments);
        }
        let joined = parts
            .into_iter()
            .reduce(|left, right| match self.random.below(4) {
                0 => op(96, &[left, lit(0), right]),
                1 => op(132, &[left, and(b(0), right)]),
                _ => and(left, right),
            });
        joined.unwrap_or(lit(7))
    }

    /// A definition of calls of operators, whose arguments are parameters and others, all below what takes 2 or
    /// all below what takes 3.
    fn dropping_definition(&mut self, name: u16) -> Field {
        let parameters = self.random.pick(&[0, 1, 1, 2, 2, 3, 3, 4, 8]);
        let action = self.random.chance(50);
        let first = self.dropping_call(parameters, action);
        let body = match self.random.below(6) {
            0 if action => op(113, &[first]),
            1 if action => op(115, &[first, lit(0)]),
            0 | 1 => always(first),
            2 => op(132, &[first, and(b(0), lit(1))]),
            3 => {
                let second = self.dropping_call(parameters, action);
                and(first, second)
            }
            _ => first,
        };
        Field::Definition(name, parameters, body)
    }

    fn dropping_call(&mut self, parameters: u8, action: bool) -> Expr {
        let scope = self.model.scope().expect("inside a module");
        let operators = scope.operators.clone();
        let wide: Vec<Operator> = operators
            .iter()
            .copied()
            .filter(|one| one.count > 0)
            .collect();
        if wide.is_empty() {
            return self.expression(parameters as usize, 1, 2);
        }
        let operator = self.random.pick(&wide);
        let names: Vec<Operator> = operators.into_iter().filter(|one| one.count == 0).collect();
        let mut next = self.random.below(MOST);
        let mut argument = || {
            next += 1;
            let inner = match self.random.below(4) {
                0 if !names.is_empty() => n(self.random.pick(&names).name, &[]),
                0 | 1 => lit(next as u16),
                _ if parameters > 0 => p((next % parameters as usize) as u8),
                _ => lit(3),
            };
            match self.random.below(4) {
                0 if action => prime(inner),
                0 => always(inner),
                _ => inner,
            }
        };
        let arguments = (0..operator.count).map(|_| argument()).collect();
        Expr::Name(operator.name, arguments)
    }

    /// Two levels and an expansion of what the last module brought last.
    fn dropping_calls(&mut self, module: u16) -> Vec<Call> {
        let scope = self.model.modules.last().map(|last| &last.scope);
        let Some((expr, params)) = scope.and_then(Scope::last_over_parameters) else {
            return Vec::new();
        };
        let expr = expr.bytes();
        let mut level = || Call::Level {
            module,
            expr: expr.clone(),
            levels: (0..params).map(|_| self.random.below(5) as u8).collect(),
        };
        let levels = [level(), level()];
        let expand = Call::Expand {
            module,
            expr: expr.clone(),
            params,
            room: 65_535,
        };
        levels.into_iter().chain([expand]).collect()
    }
}
