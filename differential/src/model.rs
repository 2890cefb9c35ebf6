//! What the fields of an accepted file bring, as far as a generator has to know it.

use crate::cards::{self, CARD, CARDS};
use crate::rows;
use crate::syntax::{Expr, Field};

/// What an operator is; declared ones are known by the number of their field.
#[derive(Clone, Copy, Debug, PartialEq, Eq)]
pub enum Meaning {
    Constant(usize),
    Variable(usize),
    Defined(usize),
}

#[derive(Clone, Copy, Debug, PartialEq, Eq)]
pub struct Operator {
    pub name: u16,
    pub count: u8,
    pub meaning: Meaning,
}

/// A named instance.
#[derive(Clone, Debug)]
pub struct Named {
    pub name: u16,
    pub field: usize,
    pub parameters: u8,
    pub operators: Vec<Operator>,
}

/// What a module can name, and its definitions in their order.
#[derive(Clone, Debug, Default)]
pub struct Scope {
    pub operators: Vec<Operator>,
    pub instances: Vec<Named>,
    pub declared: Vec<Operator>,
    pub order: Vec<usize>,
    /// Whether the module extends another.
    pub extends: bool,
}

impl Scope {
    pub fn operator(&self, name: u16) -> Option<&Operator> {
        self.operators.iter().find(|operator| operator.name == name)
    }

    pub fn instance(&self, name: u16) -> Option<&Named> {
        self.instances.iter().find(|instance| instance.name == name)
    }

    pub fn brought(&self, instance: u16, name: u16) -> Option<&Operator> {
        let operators = &self.instance(instance)?.operators;
        operators.iter().find(|operator| operator.name == name)
    }

    /// The last operator, those of named instances after all others, over as many parameters as it
    /// takes; and how many those are.
    pub fn last_over_parameters(&self) -> Option<(Expr, u8)> {
        let named = self.instances.iter();
        let named = named.flat_map(|each| each.operators.iter().map(|one| (each.name, one)));
        let operators = self.operators.iter().map(|each| (0, each));
        let (within, operator) = operators.chain(named).last()?;
        let arguments = (0..operator.count).map(Expr::Parameter).collect();
        let expr = match within {
            0 => Expr::Name(operator.name, arguments),
            _ => Expr::Brought(within, operator.name, arguments),
        };
        Some((expr, operator.count))
    }

    pub fn knows(&self, name: u16) -> bool {
        self.operator(name).is_some() || self.instance(name).is_some()
    }

    fn declare(&mut self, operator: Operator) {
        self.operators.push(operator);
        self.declared.push(operator);
    }

    fn extend(&mut self, other: &Scope) {
        let add = |into: &mut Vec<Operator>, from: &[Operator]| {
            for operator in from {
                if !into.contains(operator) {
                    into.push(*operator);
                }
            }
        };
        add(&mut self.operators, &other.operators);
        add(&mut self.declared, &other.declared);
        for instance in &other.instances {
            if self.instance(instance.name).is_none() {
                self.instances.push(instance.clone());
            }
        }
        for number in &other.order {
            if !self.order.contains(number) {
                self.order.push(*number);
            }
        }
    }
}

/// An ended module.
#[derive(Clone, Debug)]
pub struct Module {
    pub name: u16,
    pub scope: Scope,
    pub constant: bool,
    pub fields: usize,
}

#[derive(Clone, Copy, Debug)]
pub struct Definition {
    pub name: u16,
    pub parameters: u8,
    /// Number of instances that brought it, one after another.
    pub chain: usize,
    /// The field that holds its body, for a brought one the original's.
    pub field: usize,
}

/// An accepted file so far.
#[derive(Clone, Debug)]
pub struct Model {
    pub modules: Vec<Module>,
    /// Name, scope and first field of the module being written.
    pub current: Option<(u16, Scope, usize)>,
    pub definitions: Vec<Definition>,
    pub declarations: usize,
    pub fields: usize,
    /// Cards of the definitions so far.
    pub cards: Vec<u8>,
}

impl Default for Model {
    fn default() -> Self {
        Model {
            modules: Vec::new(),
            current: None,
            definitions: Vec::new(),
            declarations: 0,
            fields: 0,
            cards: vec![0; CARDS],
        }
    }
}

impl Model {
    pub fn scope(&self) -> Option<&Scope> {
        self.current.as_ref().map(|(_, scope, _)| scope)
    }

    pub fn module(&self, name: u16) -> Option<&Module> {
        self.modules.iter().find(|module| module.name == name)
    }

    /// The card of a definition.
    pub fn card(&self, number: usize) -> &[u8] {
        &self.cards[CARD * number..][..CARD]
    }

    /// The level of a definition with parameters at 0.
    pub fn at_zero(&self, number: usize) -> u8 {
        self.card(number)[1]
    }

    /// An accepted file with its cards.
    pub fn of(fields: &[Field], cards: &[u8]) -> Self {
        let mut model = Model::default();
        model.cards.copy_from_slice(&cards[..CARDS]);
        fields.iter().for_each(|field| model.add(field));
        model
    }

    /// Takes a field in that is lawful here. The cards have to be up to date at the end of a
    /// module.
    pub fn add(&mut self, field: &Field) {
        let number = self.fields;
        self.fields += 1;
        if let Field::Module(name) = field {
            self.current = Some((*name, Scope::default(), number));
            return;
        }
        let Some((name, mut scope, first)) = self.current.take() else {
            return;
        };
        match field {
            Field::Extends(names) => {
                scope.extends = true;
                for name in names {
                    if let Some(module) = self.module(*name) {
                        scope.extend(&module.scope);
                    }
                }
            }
            Field::Constant(name, count) => {
                self.declarations += 1;
                scope.declare(Operator {
                    name: *name,
                    count: *count,
                    meaning: Meaning::Constant(number),
                });
            }
            Field::Variable(name) => {
                self.declarations += 1;
                scope.declare(Operator {
                    name: *name,
                    count: 0,
                    meaning: Meaning::Variable(number),
                });
            }
            Field::Definition(name, parameters, _) => {
                let operator = self.define(*name, *parameters, 0, number);
                scope.operators.push(operator);
                scope.order.push(self.definitions.len() - 1);
            }
            Field::Instance {
                name,
                parameters,
                module,
                ..
            } => {
                let of = self.module(*module).map(|m| m.scope.order.clone());
                let mut operators = Vec::new();
                for original in of.unwrap_or_default() {
                    let Definition {
                        name: own,
                        parameters: more,
                        chain,
                        field,
                    } = self.definitions[original];
                    operators.push(self.define(own, parameters + more, chain + 1, field));
                    scope.order.push(self.definitions.len() - 1);
                }
                match name {
                    0 => scope.operators.extend(operators),
                    _ => scope.instances.push(Named {
                        name: *name,
                        field: number,
                        parameters: *parameters,
                        operators,
                    }),
                }
            }
            Field::End => {
                let is_variable = |o: &Operator| matches!(o.meaning, Meaning::Variable(_));
                let constant = !scope.declared.iter().any(is_variable)
                    && scope.order.iter().all(|&d| self.at_zero(d) == 0);
                self.modules.push(Module {
                    name,
                    scope,
                    constant,
                    fields: number - first,
                });
                return;
            }
            _ => (),
        }
        self.current = Some((name, scope, first));
    }

    fn define(&mut self, name: u16, parameters: u8, chain: usize, field: usize) -> Operator {
        self.definitions.push(Definition {
            name,
            parameters,
            chain,
            field,
        });
        Operator {
            name,
            count: parameters,
            meaning: Meaning::Defined(self.definitions.len() - 1),
        }
    }

    /// Whether two definitions are alike, if the file has both.
    pub fn alike(&self, a: u32, b: u32) -> Option<bool> {
        let [a, b] = [a, b].map(|number| number as usize);
        let known = |number: usize| number < self.definitions.len();
        (known(a) && known(b)).then(|| self.card(a) == self.card(b))
    }

    /// Where the body of a definition begins in the file, and its length.
    pub fn body(&self, file: &[u8], number: u32) -> Option<(usize, usize)> {
        let holds = self.definitions.get(number as usize)?.field;
        let length = |at: usize| u16::from_be_bytes([file[at + 1], file[at + 2]]) as usize;
        let start = (0..holds).fold(0, |at, _| at + 3 + length(at));
        // Name and parameter count stand before it.
        Some((start + 6, length(start) - 3))
    }

    /// The level of an operator over arguments of these levels.
    pub fn applied(&self, operator: &Operator, levels: &[u8]) -> u8 {
        match operator.meaning {
            Meaning::Constant(_) => rows::highest(levels),
            Meaning::Variable(_) => 1,
            Meaning::Defined(number) => cards::read(self.card(number), levels),
        }
    }

    /// Whether an operator drops the argument of this number.
    pub fn drops(&self, operator: &Operator, argument: usize) -> bool {
        match operator.meaning {
            Meaning::Defined(number) => cards::drops(self.card(number), argument),
            _ => false,
        }
    }

    /// The level of an expression with lawful names; 4 for anything else.
    pub fn level(&self, scope: &Scope, expr: &Expr, params: &[u8], binders: &mut Vec<u8>) -> u8 {
        let operator = match expr {
            Expr::Parameter(index) => return params.get(*index as usize).copied().unwrap_or(4),
            Expr::Bound(index) => {
                let nearest_first = binders.iter().rev();
                return nearest_first.copied().nth(*index as usize).unwrap_or(4);
            }
            Expr::Literal(_) => return 0,
            Expr::BuiltIn(code, arguments) => {
                let Some(row) = rows::row(*code) else {
                    return 4;
                };
                let mut levels = Vec::new();
                for (at, argument) in arguments.iter().enumerate() {
                    let binds = row.binds_in(at);
                    binders.extend(binds);
                    levels.push(self.level(scope, argument, params, binders));
                    if binds.is_some() {
                        binders.pop();
                    }
                }
                return row.level(&levels);
            }
            Expr::Name(name, _) => scope.operator(*name),
            Expr::Brought(instance, name, _) => scope.brought(*instance, *name),
        };
        let arguments = expr.arguments();
        match operator {
            Some(operator) if operator.count as usize == arguments.len() => {
                let levels: Vec<u8> = arguments
                    .iter()
                    .map(|argument| self.level(scope, argument, params, binders))
                    .collect();
                self.applied(operator, &levels)
            }
            _ => 4,
        }
    }
}
