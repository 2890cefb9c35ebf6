//! A file as a list of fields, each exactly as the tagged format has it.

use crate::codes;
use crate::names::Names;
use std::fmt;

/// One token of an expression. The arguments of a token follow it.
#[derive(Clone, Copy, Debug, PartialEq, Eq, Hash)]
pub enum Token {
    /// A parameter, counted from 0.
    Parameter(u8),
    /// A bound variable; 0 is the nearest binder.
    Bound(u16),
    /// A declared or defined name with a number of arguments.
    Name { name: u16, arguments: u8 },
    /// An operator of a named instance, `I!F`.
    Instance {
        instance: u16,
        name: u16,
        arguments: u8,
    },
    /// A built-in, given by its code.
    BuiltIn(u8),
    /// A literal.
    Literal(u16),
}

impl Token {
    /// The number of arguments that follow, `None` for a code that does not exist.
    pub fn arguments(self) -> Option<usize> {
        match self {
            Token::Parameter(_) | Token::Bound(_) | Token::Literal(_) => Some(0),
            Token::Name { arguments, .. } | Token::Instance { arguments, .. } => {
                Some(usize::from(arguments))
            }
            Token::BuiltIn(code) => codes::arguments(code),
        }
    }

    /// The number of bytes it takes in a tagged file.
    pub fn length(self) -> usize {
        match self {
            Token::Parameter(_) | Token::BuiltIn(_) => 2,
            Token::Bound(_) | Token::Literal(_) => 3,
            Token::Name { .. } => 4,
            Token::Instance { .. } => 6,
        }
    }
}

/// Why a list of tokens is not an expression.
#[derive(Clone, Copy, Debug, PartialEq, Eq)]
pub enum ExprFault {
    /// An argument is missing.
    CutShort,
    /// Tokens follow the last argument.
    LeftOver,
    /// No built-in has the code.
    UnknownCode(u8),
    /// A name is 0.
    NameZero,
}

impl fmt::Display for ExprFault {
    fn fmt(&self, f: &mut fmt::Formatter<'_>) -> fmt::Result {
        match self {
            ExprFault::CutShort => write!(f, "an argument is missing"),
            ExprFault::LeftOver => write!(f, "tokens are left over after the expression"),
            ExprFault::UnknownCode(code) => write!(f, "no built-in has the code {code}"),
            ExprFault::NameZero => write!(f, "a name is 0"),
        }
    }
}

impl std::error::Error for ExprFault {}

/// An expression: one token followed by its arguments, each again an expression.
///
/// It is kept as the format keeps it, a flat list of tokens, so no operation on it recurses.
#[derive(Clone, Debug, PartialEq, Eq, Hash)]
pub struct Expr {
    tokens: Vec<Token>,
}

impl Expr {
    /// The expression that the tokens spell, if they spell exactly one.
    pub fn from_tokens(tokens: Vec<Token>) -> Result<Expr, ExprFault> {
        let mut wanted = 1usize;
        for &token in &tokens {
            if wanted == 0 {
                return Err(ExprFault::LeftOver);
            }
            match token {
                Token::Name { name: 0, .. }
                | Token::Instance { name: 0, .. }
                | Token::Instance { instance: 0, .. } => return Err(ExprFault::NameZero),
                Token::BuiltIn(code) if codes::arguments(code).is_none() => {
                    return Err(ExprFault::UnknownCode(code));
                }
                _ => wanted = wanted - 1 + token.arguments().unwrap_or(0),
            }
        }
        if wanted == 0 {
            Ok(Expr { tokens })
        } else {
            Err(ExprFault::CutShort)
        }
    }

    /// A token applied to arguments.
    pub fn new(token: Token, arguments: &[Expr]) -> Result<Expr, ExprFault> {
        let mut tokens = vec![token];
        for argument in arguments {
            tokens.extend_from_slice(&argument.tokens);
        }
        Expr::from_tokens(tokens)
    }

    /// Its tokens, each before its arguments.
    pub fn tokens(&self) -> &[Token] {
        &self.tokens
    }

    /// The number of bytes it takes in a tagged file.
    pub fn length(&self) -> usize {
        self.tokens.iter().map(|token| token.length()).sum()
    }

    /// Its nesting; a token without arguments is nesting 1.
    pub fn nesting(&self) -> usize {
        let mut deepest = 0;
        let mut open: Vec<usize> = Vec::new();
        for token in &self.tokens {
            deepest = deepest.max(open.len() + 1);
            open.push(token.arguments().unwrap_or(0));
            while open.last() == Some(&0) {
                open.pop();
                if let Some(wanted) = open.last_mut() {
                    *wanted -= 1;
                }
            }
        }
        deepest
    }

    /// For each token, where its arguments begin.
    pub(crate) fn arguments(&self) -> Vec<Vec<usize>> {
        let mut all = vec![Vec::new(); self.tokens.len()];
        let mut ready = Vec::new();
        for (at, token) in self.tokens.iter().enumerate().rev() {
            for _ in 0..token.arguments().unwrap_or(0) {
                all[at].extend(ready.pop());
            }
            ready.push(at);
        }
        all
    }

    fn for_each_name(&self, note: &mut impl FnMut(Space, u16)) {
        for token in &self.tokens {
            match *token {
                Token::Name { name, .. } => note(Space::Operators, name),
                Token::Instance { instance, name, .. } => {
                    note(Space::Operators, instance);
                    note(Space::Operators, name);
                }
                _ => {}
            }
        }
    }

    fn map_names(&mut self, number: &mut impl FnMut(Space, u16) -> u16) {
        for token in &mut self.tokens {
            match token {
                Token::Name { name, .. } => *name = number(Space::Operators, *name),
                Token::Instance { instance, name, .. } => {
                    *instance = number(Space::Operators, *instance);
                    *name = number(Space::Operators, *name);
                }
                _ => {}
            }
        }
    }
}

/// The two spaces that names live in.
#[derive(Clone, Copy, Debug, PartialEq, Eq)]
pub enum Space {
    /// Names of modules.
    Modules,
    /// Names of operators and of instances.
    Operators,
}

/// A substitution of an INSTANCE field.
#[derive(Clone, Debug, PartialEq, Eq, Hash)]
pub struct Substitution {
    /// The declared name that is replaced.
    pub name: u16,
    /// What replaces it: an expression over the instance's parameters and then those of the name.
    pub expression: Expr,
}

/// A field of a file.
#[derive(Clone, Debug, PartialEq, Eq, Hash)]
pub enum Field {
    /// Tag 1.
    Module { name: u16 },
    /// Tag 2.
    Extends { modules: Vec<u16> },
    /// Tag 3.
    Constant { name: u16, arguments: u8 },
    /// Tag 4.
    Variable { name: u16 },
    /// Tag 5.
    Definition {
        name: u16,
        parameters: u8,
        body: Expr,
    },
    /// Tag 6; the name 0 is an unnamed instance.
    Instance {
        name: u16,
        parameters: u8,
        module: u16,
        substitutions: Vec<Substitution>,
    },
    /// Tag 7.
    End,
    /// Tag 8.
    Assume { formula: Expr },
    /// Tag 9.
    Theorem { formula: Expr },
}

impl Field {
    /// The number of bytes of its payload.
    pub fn length(&self) -> usize {
        match self {
            Field::Module { .. } | Field::Variable { .. } => 2,
            Field::Extends { modules } => 2 * modules.len(),
            Field::Constant { .. } => 3,
            Field::Definition { body, .. } => 3 + body.length(),
            Field::Instance { substitutions, .. } => substitutions
                .iter()
                .map(|substitution| 4 + substitution.expression.length())
                .sum::<usize>()
                .saturating_add(6),
            Field::End => 0,
            Field::Assume { formula } | Field::Theorem { formula } => formula.length(),
        }
    }

    /// Calls `note` with every name of the field, in the order of the bytes. The name 0 of an
    /// unnamed instance is left out.
    pub fn for_each_name(&self, mut note: impl FnMut(Space, u16)) {
        match self {
            Field::Module { name } => note(Space::Modules, *name),
            Field::Extends { modules } => {
                for &module in modules {
                    note(Space::Modules, module);
                }
            }
            Field::Constant { name, .. } | Field::Variable { name } => {
                note(Space::Operators, *name);
            }
            Field::Definition { name, body, .. } => {
                note(Space::Operators, *name);
                body.for_each_name(&mut note);
            }
            Field::Instance {
                name,
                module,
                substitutions,
                ..
            } => {
                if *name != 0 {
                    note(Space::Operators, *name);
                }
                note(Space::Modules, *module);
                for substitution in substitutions {
                    note(Space::Operators, substitution.name);
                    substitution.expression.for_each_name(&mut note);
                }
            }
            Field::End => {}
            Field::Assume { formula } | Field::Theorem { formula } => {
                formula.for_each_name(&mut note);
            }
        }
    }

    /// Calls `note` with the operator names that stand where a parameter could: in expressions,
    /// and the name that the field itself defines.
    pub(crate) fn for_each_operator(&self, mut note: impl FnMut(u16)) {
        let mut within = |_: Space, name: u16| note(name);
        match self {
            Field::Definition { name, body, .. } => {
                within(Space::Operators, *name);
                body.for_each_name(&mut within);
            }
            Field::Instance {
                name,
                substitutions,
                ..
            } => {
                if *name != 0 {
                    within(Space::Operators, *name);
                }
                for substitution in substitutions {
                    substitution.expression.for_each_name(&mut within);
                }
            }
            Field::Assume { formula } | Field::Theorem { formula } => {
                formula.for_each_name(&mut within);
            }
            _ => {}
        }
    }

    /// Replaces every name, in the order of the bytes.
    pub(crate) fn map_names(&mut self, number: &mut impl FnMut(Space, u16) -> u16) {
        match self {
            Field::Module { name } => *name = number(Space::Modules, *name),
            Field::Extends { modules } => {
                for module in modules {
                    *module = number(Space::Modules, *module);
                }
            }
            Field::Constant { name, .. } | Field::Variable { name } => {
                *name = number(Space::Operators, *name);
            }
            Field::Definition { name, body, .. } => {
                *name = number(Space::Operators, *name);
                body.map_names(number);
            }
            Field::Instance {
                name,
                module,
                substitutions,
                ..
            } => {
                if *name != 0 {
                    *name = number(Space::Operators, *name);
                }
                *module = number(Space::Modules, *module);
                for substitution in substitutions {
                    substitution.name = number(Space::Operators, substitution.name);
                    substitution.expression.map_names(number);
                }
            }
            Field::End => {}
            Field::Assume { formula } | Field::Theorem { formula } => formula.map_names(number),
        }
    }

    /// The name that the field adds to its module, if it adds one.
    pub(crate) fn adds(&self) -> Option<u16> {
        match self {
            Field::Constant { name, .. }
            | Field::Variable { name }
            | Field::Definition { name, .. } => Some(*name),
            Field::Instance { name, .. } if *name != 0 => Some(*name),
            _ => None,
        }
    }
}

/// A file: its fields in order, with the spellings that are known for its names.
#[derive(Clone, Debug, Default, PartialEq, Eq)]
pub struct File {
    pub fields: Vec<Field>,
    pub names: Names,
}
