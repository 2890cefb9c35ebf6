//! Files with chosen faults: one cause, two in one field, or two in two fields.

use crate::accepted;
use crate::random::Random;
use crate::rows;
use crate::syntax::{
    self, always, and, b, brought, instance, lit, n, op, p, prime, wrap, Expr, Field,
};

/// The kinds of fields that faults are put into.
#[derive(Clone, Copy, Debug, PartialEq, Eq)]
pub enum Kind {
    Module,
    Extends,
    Constant,
    Variable,
    Definition,
    Instance,
    End,
    Assume,
    Theorem,
}

/// The causes that a field can have.
pub const OF_FIELDS: [u32; 14] = [3, 4, 5, 6, 7, 8, 9, 10, 11, 12, 13, 14, 16, 21];

/// For each kind of field the causes that can hold of it, in the order in which they are judged.
pub const KINDS: [(Kind, &[u32]); 9] = [
    (Kind::Module, &[3, 4, 5, 6]),
    (Kind::Extends, &[3, 4, 7, 8]),
    (Kind::Constant, &[3, 4, 5, 8]),
    (Kind::Variable, &[3, 4, 5, 8]),
    (Kind::Definition, &[3, 4, 5, 8, 9, 10, 12]),
    (Kind::Instance, &[3, 4, 5, 7, 8, 9, 10, 11, 12, 14, 21, 16]),
    (Kind::End, &[3, 4]),
    (Kind::Assume, &[3, 4, 5, 9, 10, 12, 13]),
    (Kind::Theorem, &[3, 4, 5, 9, 10, 12]),
];

/// What is to be wrong with a file.
#[derive(Clone, Copy, Debug, PartialEq, Eq)]
pub enum Plan {
    /// The file is empty.
    Empty,
    /// The file is over its limit, with a field at fault or not.
    Large(bool),
    /// The file ends inside a module.
    Open,
    Single(Kind, u32),
    OneField(Kind, u32, u32),
    /// The first of two fields at fault decides.
    TwoFields(u32, u32),
}

impl Plan {
    /// A name for the counts.
    pub fn label(&self) -> String {
        match self {
            Plan::Empty => "empty file".into(),
            Plan::Large(false) => "large file".into(),
            Plan::Large(true) => "large file at fault".into(),
            Plan::Open => "file ends inside a module".into(),
            Plan::Single(kind, cause) => format!("{kind:?} {cause}"),
            Plan::OneField(kind, first, second) => format!("{kind:?} {first} with {second}"),
            Plan::TwoFields(first, second) => format!("{first} then {second}"),
        }
    }
}

/// Every plan.
pub fn plans() -> Vec<Plan> {
    let mut plans = vec![
        Plan::Empty,
        Plan::Large(false),
        Plan::Large(true),
        Plan::Open,
    ];
    for (kind, causes) in KINDS {
        for (at, &first) in causes.iter().enumerate() {
            plans.push(Plan::Single(kind, first));
            for &second in &causes[at + 1..] {
                // An ASSUME at level 4 is not also at 1, 2 or 3, and a module that is not there is not
                // constant.
                if !matches!((first, second), (12, 13) | (7, 21)) {
                    plans.push(Plan::OneField(kind, first, second));
                }
            }
        }
    }
    for first in OF_FIELDS {
        plans.extend(OF_FIELDS.map(|second| Plan::TwoFields(first, second)));
    }
    plans
}

/// A file with the refusal that is meant.
#[derive(Clone, Debug)]
pub struct Targeted {
    pub file: Vec<u8>,
    pub cause: u32,
    pub place: u32,
}

/// Builds a file for a plan.
pub fn build(plan: Plan, random: &mut Random) -> Targeted {
    let mut site = Site::new(random);
    let (cause, place) = match plan {
        Plan::Empty => {
            return Targeted {
                file: Vec::new(),
                cause: 2,
                place: 0,
            }
        }
        Plan::Large(fault) => {
            if fault {
                let kind = site.kind_for(9);
                site.place(kind, &[9]);
            } else {
                site.fields.push(Field::End);
            }
            let mut file = syntax::file(&site.fields);
            let mut name = 20_000;
            while file.len() <= accepted::LARGEST {
                Field::Module(name).write(&mut file);
                Field::End.write(&mut file);
                name += 1;
            }
            let more = random.pick(&[0, 0, 1, 40_000]);
            file.truncate(accepted::LARGEST + 1);
            file.resize(accepted::LARGEST + 1 + more, 7);
            return Targeted {
                file,
                cause: 2,
                place: 0,
            };
        }
        Plan::Open => {
            let place = site.fields.len();
            return Targeted {
                file: syntax::file(&site.fields),
                cause: 4,
                place: place as u32,
            };
        }
        Plan::Single(kind, cause) => (cause, site.place(kind, &[cause])),
        Plan::OneField(kind, first, second) => (first, site.place(kind, &[first, second])),
        Plan::TwoFields(first, second) => {
            let kind = site.kind_for(first);
            let place = site.place(kind, &[first]);
            let kind = site.kind_for(second);
            site.place(kind, &[second]);
            (first, place)
        }
    };
    match site.random.below(4) {
        0 => (),
        1 => site.fields.push(Field::Raw(vec![200, 0])),
        _ => site.fields.push(Field::End),
    }
    Targeted {
        file: syntax::file(&site.fields),
        cause,
        place: place as u32,
    }
}

// Names, before the offset of a site. What the instanced module declares is known under the same
// names where faults are put, except D_.
const X: u16 = 1;
const C: u16 = 2;
const K: u16 = 3;
const F: u16 = 4;
const Q: u16 = 5;
const I: u16 = 6;
const D_: u16 = 7;
const G: u16 = 8;
const BOX: u16 = 9;
const J: u16 = 10;
const FRESH: u16 = 11;
const NOWHERE: u16 = 12;
// Declared by the constant module only; where faults are put, definitions at 2 and at 3.
const ACTION: u16 = 13;
const TEMPORAL: u16 = 14;

/// A file with a module that faults can be put into.
struct Site<'a> {
    random: &'a mut Random,
    fields: Vec<Field>,
    /// Added to every name.
    offset: u16,
    /// Module names: empty, instanced, with a named instance, extending that, two that clash, a constant
    /// one to be instanced, and that with a named instance.
    modules: [u16; 8],
    open: u16,
    declarations: usize,
    module_count: usize,
    /// Whether a definition of the instanced module is also known where faults are put.
    clash: bool,
    /// Whether a fault is there already, so that no field may be put before it.
    settled: bool,
}

impl<'a> Site<'a> {
    fn new(random: &'a mut Random) -> Self {
        let mut fields = Vec::new();
        let (mut declarations, mut module_count) = (0, 0);
        if random.chance(40) {
            let modules = 1 + random.below(3);
            let size = 20 + random.below(400);
            let grown = accepted::grow(random, size, modules);
            declarations = grown.model.declarations;
            module_count = modules;
            fields = grown.fields;
        }
        let first = random.pick(&[1_000, 2_040, 40_000]);
        let mut site = Site {
            offset: random.pick(&[0, 100, 250, 65_000]),
            clash: random.chance(50),
            settled: false,
            random,
            fields,
            modules: [0, 1, 2, 3, 4, 5, 6, 7].map(|i| first + i),
            open: first + 8,
            declarations,
            module_count,
        };
        site.fixture();
        site
    }

    fn name(&self, name: u16) -> u16 {
        self.offset + name
    }

    fn module(&mut self, name: u16, inside: Vec<Field>) {
        self.fields.push(Field::Module(name));
        let declares = |f: &&Field| matches!(f, Field::Constant(..) | Field::Variable(_));
        self.declarations += inside.iter().filter(declares).count();
        self.module_count += 1;
        self.fields.extend(inside);
    }

    fn fixture(&mut self) {
        let [empty, instanced, named, extending, left, right, calm, calm_named] = self.modules;
        let [x, c, k, f, q, i] = [X, C, K, F, Q, I].map(|name| self.name(name));
        let [d, g, boxed, j] = [D_, G, BOX, J].map(|name| self.name(name));
        let [action, temporal] = [ACTION, TEMPORAL].map(|name| self.name(name));
        let plain = if self.clash { q } else { g };
        let u = || n(x, &[]);
        self.module(empty, vec![Field::End]);
        let always_k = always(n(k, &[u(), always(u())]));
        self.module(
            instanced,
            vec![
                Field::Constant(k, 2),
                Field::Constant(c, 0),
                Field::Constant(d, 0),
                Field::Constant(f, 0),
                Field::Variable(x),
                Field::Definition(plain, 1, and(p(0), n(d, &[]))),
                Field::Definition(boxed, 0, always_k),
                Field::End,
            ],
        );
        self.module(
            named,
            vec![
                Field::Extends(vec![instanced]),
                instance(j, 0, empty, &[]),
                Field::End,
            ],
        );
        self.module(
            extending,
            vec![Field::Extends(vec![named, instanced]), Field::End],
        );
        for module in [left, right] {
            self.module(module, vec![Field::Variable(x), Field::End]);
        }
        let constants = [c, d, f, action, temporal].map(|name| Field::Constant(name, 0));
        let mut inside = vec![Field::Constant(k, 2)];
        inside.extend(constants);
        // What has cause 12 or 14 is declared before the 2 and the 3, between them or after them.
        self.random.shuffle(&mut inside);
        inside.push(Field::Definition(plain, 1, and(p(0), n(d, &[]))));
        inside.push(Field::End);
        self.module(calm, inside);
        self.module(
            calm_named,
            vec![
                Field::Extends(vec![calm]),
                instance(j, 0, empty, &[]),
                Field::End,
            ],
        );
        let open = self.open;
        let own = [(k, n(k, &[p(0), p(1)])), (d, lit(0)), (f, n(c, &[]))];
        self.module(
            open,
            vec![
                Field::Variable(x),
                Field::Constant(c, 0),
                Field::Constant(k, 2),
                Field::Definition(f, 1, lit(7)),
                Field::Definition(q, 0, n(c, &[])),
                Field::Definition(action, 0, prime(u())),
                Field::Definition(temporal, 0, always(u())),
                instance(i, 0, instanced, &own),
            ],
        );
        // Anything lawful, so that places differ.
        for _ in 0..self.random.below(4) {
            let formula = self.random.pick(&[lit(0), n(c, &[]), n(f, &[u()])]);
            self.fields.push(Field::Assume(formula));
        }
    }

    fn kind_for(&mut self, cause: u32) -> Kind {
        let kinds: Vec<Kind> = KINDS
            .iter()
            .filter(|(_, causes)| causes.contains(&cause))
            .map(|&(kind, _)| kind)
            .collect();
        self.random.pick(&kinds)
    }

    /// A name that is taken where faults are put.
    fn taken(&mut self) -> u16 {
        let name = self.random.pick(&[X, C, K, F, Q, I]);
        self.name(name)
    }

    /// Adds a field with these faults and gives its place.
    fn place(&mut self, kind: Kind, causes: &[u32]) -> usize {
        let has = |cause: u32| causes.contains(&cause);
        // Out of order is outside a module, but for a module and for EXTENDS inside one.
        match kind {
            Kind::Module => {
                while has(5) && self.module_count < 16 && !self.settled {
                    let name = 30_000 + self.module_count as u16;
                    let pad = [Field::Module(name), Field::End];
                    let open = Field::Module(self.open);
                    let at = self.fields.iter().rposition(|field| *field == open);
                    let at = at.expect("the module that faults are put into");
                    self.fields.splice(at..at, pad);
                    self.module_count += 1;
                }
                if !has(4) {
                    self.fields.push(Field::End);
                }
            }
            Kind::Extends if !has(4) => {
                let name = 29_000 + self.fields.len() as u16;
                self.fields.extend([Field::End, Field::Module(name)]);
            }
            Kind::Extends => (),
            Kind::Variable if has(5) => {
                while self.declarations < 64 {
                    let name = 31_000 + self.declarations as u16;
                    self.fields.push(Field::Variable(name));
                    self.declarations += 1;
                }
                if has(4) {
                    self.fields.push(Field::End);
                }
            }
            _ if has(4) => self.fields.push(Field::End),
            _ => (),
        }
        let field = self.field(kind, causes);
        let field = if has(3) { self.broken(field) } else { field };
        self.fields.push(field);
        self.settled = true;
        self.fields.len() - 1
    }

    fn field(&mut self, kind: Kind, causes: &[u32]) -> Field {
        let has = |cause: u32| causes.contains(&cause);
        let fresh = self.name(FRESH);
        let name = if has(8) { self.taken() } else { fresh };
        match kind {
            Kind::Module => Field::Module(if has(6) {
                self.random.pick(&self.modules)
            } else {
                28_000
            }),
            Kind::Extends => {
                let [empty, instanced, named, extending, left, right, ..] = self.modules;
                let mut names = match self.random.below(3) {
                    0 => vec![empty],
                    1 => vec![named, instanced, extending],
                    _ => vec![instanced, empty, instanced],
                };
                if has(8) {
                    names.push(left);
                    names.push(right);
                }
                if has(7) {
                    let at = self.random.below(names.len() + 1);
                    names.insert(at, 27_000);
                }
                Field::Extends(names)
            }
            Kind::Constant => {
                let count = if has(5) {
                    self.random.pick(&[9, 10, 255])
                } else {
                    self.count()
                };
                Field::Constant(name, count)
            }
            Kind::Variable => Field::Variable(name),
            Kind::Definition => {
                let mut parameters = self.count();
                let mut inside = causes.to_vec();
                if has(5) && self.random.chance(50) {
                    parameters = self.random.pick(&[9, 10, 255]);
                    inside.retain(|&cause| cause != 5);
                }
                Field::Definition(name, parameters, self.formula(&inside, parameters))
            }
            Kind::Instance => self.instance(causes, name),
            Kind::End => Field::End,
            Kind::Assume => Field::Assume(self.formula(causes, 0)),
            Kind::Theorem => Field::Theorem(self.formula(causes, 0)),
        }
    }

    /// A lawful number of parameters or arguments.
    fn count(&mut self) -> u8 {
        self.random.pick(&[0, 1, 2, 3, 4, 6, 8])
    }

    fn unknown(&mut self, parameters: u8) -> Expr {
        let [x, q, i, d, nowhere] = [X, Q, I, D_, NOWHERE].map(|name| self.name(name));
        let choices = [
            n(nowhere, &[]),
            n(i, &[]),
            n(d, &[]),
            p(parameters),
            p(255),
            b(0),
            b(256),
            op(128, &[b(1)]),
            op(132, &[b(0), b(0)]),
            op(141, &[op(139, &[b(1), b(1)])]),
            brought(nowhere, q, &[]),
            brought(i, nowhere, &[]),
            brought(x, q, &[]),
            brought(i, x, &[]),
        ];
        self.random.pick(&choices)
    }

    fn miscounted(&mut self) -> Expr {
        let [x, c, k, f, i] = [X, C, K, F, I].map(|name| self.name(name));
        let boxed = self.name(BOX);
        let choices = [
            n(x, &[lit(0)]),
            n(c, &[lit(0), lit(1)]),
            n(k, &[lit(0)]),
            n(k, &[]),
            n(k, &[lit(0), lit(1), lit(2)]),
            n(k, &vec![lit(0); 8]),
            n(f, &[]),
            brought(i, boxed, &vec![lit(1); 8]),
            brought(i, boxed, &[lit(0)]),
        ];
        self.random.pick(&choices)
    }

    fn over_limit(&mut self) -> Expr {
        let (k, i, boxed) = (self.name(K), self.name(I), self.name(BOX));
        let nine = vec![lit(0); 9];
        let choices = [
            wrap(32, lit(0)),
            wrap(31, and(lit(0), wrap(1, lit(0)))),
            wrap(100, lit(1)),
            n(k, &nine),
            brought(i, boxed, &nine),
            n(k, &vec![lit(1); 255]),
        ];
        self.random.pick(&choices)
    }

    /// An expression with these of the causes 5, 9, 10, 12 and 13.
    fn formula(&mut self, causes: &[u32], parameters: u8) -> Expr {
        let [x, c, k, f] = [X, C, K, F].map(|name| self.name(name));
        let mut parts = vec![self.random.pick(&[lit(0), n(c, &[]), n(f, &[lit(0)])])];
        for cause in causes {
            let hidden = self.random.chance(25);
            let part = match cause {
                5 => self.over_limit(),
                9 => self.unknown(parameters),
                10 => self.miscounted(),
                12 => {
                    let (action, temporal) = (prime(n(x, &[])), always(n(x, &[])));
                    let wrong = [
                        and(action.clone(), temporal.clone()),
                        op(96, &[temporal.clone(), lit(1), action.clone()]),
                        op(132, &[action.clone(), always(b(0))]),
                        n(k, &[action, temporal]),
                        prime(prime(n(x, &[]))),
                        always(prime(lit(0))),
                        op(140, &[prime(b(0))]),
                        op(115, &[lit(0), prime(lit(1))]),
                        op(113, &[always(lit(0))]),
                    ];
                    self.random.pick(&wrong)
                }
                13 => self
                    .random
                    .pick(&[n(x, &[]), prime(n(c, &[])), always(n(x, &[]))]),
                _ => continue,
            };
            // Faults in what is dropped count, except those of level.
            let hidden = hidden && matches!(cause, 5 | 9 | 10);
            parts.push(if hidden { n(f, &[part]) } else { part });
        }
        while parts.len() > 1 {
            let at = self.random.below(parts.len() - 1);
            let right = parts.remove(at + 1);
            let left = parts.remove(at);
            parts.insert(at, op(48 + self.random.below(48) as u8, &[left, right]));
        }
        parts.remove(0)
    }

    fn instance(&mut self, causes: &[u32], name: u16) -> Field {
        let has = |cause: u32| causes.contains(&cause);
        let [x, c, k, f, d] = [X, C, K, F, D_].map(|name| self.name(name));
        let [action, temporal] = [ACTION, TEMPORAL].map(|name| self.name(name));
        let [_, instanced, named, extending, _, _, calm, calm_named] = self.modules;
        let module = match (has(7), has(21), has(16)) {
            (true, ..) => self.random.pick(&[27_000, self.open]),
            (_, true, true) => calm_named,
            (_, true, false) => calm,
            (_, false, true) => self.random.pick(&[named, extending]),
            _ => instanced,
        };
        let lawful_unnamed = !self.clash && !has(8);
        let clashing_unnamed = self.clash && has(8);
        let unnamed = (lawful_unnamed || clashing_unnamed) && self.random.chance(50);
        let (name, mut own) = match unnamed {
            true => (0, 0),
            false => (name, self.random.pick(&[0, 0, 1, 1, 5, 6])),
        };
        let mut over = has(5).then(|| self.random.below(4));
        // Without a module nothing is known of its operators and definitions.
        if (unnamed && over == Some(0)) || ((unnamed || has(7)) && over == Some(1)) {
            over = Some(2);
        }
        match over {
            Some(0) => own = self.random.pick(&[9, 200]),
            // With the operator's own arguments or the definition's.
            Some(1) => own = self.random.pick(&[7, 8]),
            _ => (),
        }
        let mut with = Vec::new();
        // K is substituted, or stands for itself.
        let both = and(p(own), p(own + 1));
        if has(14) && has(21) {
            // A constant module has nothing else that is unlawful.
            let unlawful = [n(x, &[]), and(p(own), n(x, &[])), prime(lit(0))];
            with.push((k, self.random.pick(&unlawful)));
        } else if self.random.chance(50) || over == Some(1) {
            with.push((
                k,
                self.random
                    .pick(&[both, lit(3), n(k, &[p(own + 1), p(own)])]),
            ));
        }
        if has(21) && has(12) {
            with.push((c, prime(prime(n(x, &[])))));
        } else if has(14) && !has(21) {
            let unlawful = [n(x, &[]), prime(lit(0)), always(n(x, &[]))];
            with.push((c, self.random.pick(&unlawful)));
        } else if self.random.chance(50) {
            with.push((c, n(c, &[])));
        }
        // D_ is not known here, and F has another argument count.
        if has(9) {
            if self.random.chance(70) {
                with.push((d, self.unknown(own)));
            }
        } else {
            with.push((d, lit(1)));
        }
        if has(10) {
            if self.random.chance(70) {
                with.push((f, self.miscounted()));
            }
        } else {
            with.push((f, lit(2)));
        }
        if has(21) {
            // Each written, or standing for itself.
            let high = [(action, prime(n(x, &[]))), (temporal, always(lit(0)))];
            for written in high {
                if self.random.chance(60) {
                    with.push(written);
                }
            }
        } else if has(12) {
            with.push((x, prime(prime(n(x, &[])))));
        } else if self.random.chance(50) {
            with.push((x, n(x, &[])));
        }
        if has(11) {
            let other = self.random.pick(&[NOWHERE, G, BOX]);
            let first = with.first().map(|(name, _)| *name);
            let twice = first.filter(|_| self.random.chance(40));
            with.push((twice.unwrap_or(self.name(other)), lit(4)));
        }
        if let (Some(2 | 3), false) = (over, with.is_empty()) {
            let at = self.random.below(with.len());
            let part = self.over_limit();
            with[at].1 = and(with[at].1.clone(), part);
        }
        self.random.shuffle(&mut with);
        Field::Instance {
            name,
            parameters: own,
            module,
            with,
        }
    }

    /// The bytes of a field with something wrong in its layout.
    fn broken(&mut self, mut field: Field) -> Field {
        let expressions = field.expressions().len();
        let choice = self.random.below(8);
        if choice >= 5 && expressions > 0 {
            let at = self.random.below(expressions);
            let expr = field.expressions_mut().remove(at);
            let part = self.random.below(expr.size());
            let part = expr.part_mut(part);
            *part = match choice {
                5 => {
                    let (code, arguments) = match self.random.chance(50) {
                        true => self.random.pick(&rows::BESIDE),
                        false => (self.random.pick(&rows::unknown_codes()), 0),
                    };
                    op(code, &vec![lit(0); arguments])
                }
                6 => n(0, &[]),
                _ => {
                    let (zero, other) = self.random.pick(&[(0, 1), (1, 0), (0, 0)]);
                    brought(zero, other, &[])
                }
            };
            return field;
        }
        if let (4, Field::Instance { with, .. }) = (choice, &mut field) {
            if !with.is_empty() && self.random.chance(50) {
                let at = self.random.below(with.len());
                with[at].0 = 0;
                return field;
            }
        }
        let mut bytes = field.bytes();
        let set_length = |bytes: &mut Vec<u8>| {
            let length = (bytes.len() - 3) as u16;
            bytes[1..3].copy_from_slice(&length.to_be_bytes());
        };
        match choice {
            0 if bytes.len() > 3 => {
                bytes.pop();
                set_length(&mut bytes);
            }
            1 | 5 => {
                bytes.push(self.random.byte());
                set_length(&mut bytes);
            }
            2 => bytes[0] = self.random.pick(&[0, 10, 11, 128, 255]),
            3 => bytes[1] = 255,
            4 if bytes.len() > 4 && matches!(bytes[0], 1..=5) => bytes[3..5].fill(0),
            4 if bytes[0] == 6 => {
                // Unnamed with parameters, or no module name.
                if self.random.chance(50) {
                    bytes[3..6].copy_from_slice(&[0, 0, 1]);
                } else {
                    bytes[6..8].fill(0);
                }
            }
            6 if matches!(bytes[0], 8 | 9) => bytes[3] = 6,
            _ => bytes[0] = 77,
        }
        Field::Raw(bytes)
    }
}
