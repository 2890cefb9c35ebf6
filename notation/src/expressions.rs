//! From text to expressions. What is still open is kept on a list of frames, not on the stack of
//! the program, so that any nesting can be read.

use crate::ast::{Expr, Space, Token};
use crate::codes::{self, rank};
use crate::lexer::{Lexeme, Position};
use crate::parse::{counted, Local, ParseError, Parser, Scope};

/// A token with its arguments, by their numbers in the arena.
struct Node {
    token: Token,
    arguments: Vec<usize>,
}

/// What is applied to arguments in parentheses.
#[derive(Clone, Copy)]
enum Head {
    Name(u16),
    Instance(u16, u16),
    BuiltIn(u8),
}

/// A form that is still open.
enum Frame<'t> {
    Infix {
        code: u8,
        left: usize,
    },
    Prefix {
        code: u8,
    },
    Body {
        code: u8,
        word: &'t str,
        set: Option<usize>,
    },
    /// The set of a binder, up to `:`; its variable, the `count`th local name of the field, is
    /// not in scope yet.
    Set {
        code: u8,
        word: &'t str,
        place: Position,
        count: usize,
    },
    Parentheses {
        open: Position,
    },
    Arguments {
        head: Head,
        arguments: Vec<usize>,
        open: Position,
    },
    /// The action of `[A]_v` or `<<A>>_v`, up to the closing sign.
    Action {
        code: u8,
        open: Position,
        close: &'static str,
    },
    /// The subscript in parentheses of `[A]_(e)` or `<<A>>_(e)`.
    Subscript {
        code: u8,
        action: usize,
        open: Position,
    },
    /// The subscript in parentheses of `WF_(e)(A)`.
    FairSubscript {
        code: u8,
        open: Position,
    },
    /// The action of `WF_v(A)`.
    FairAction {
        code: u8,
        subscript: usize,
        open: Position,
    },
}

/// What an infix sign means.
fn infix(lexeme: Lexeme<'_>) -> Option<(u8, u8)> {
    let code = match lexeme {
        Lexeme::Sign("=") => 48,
        Lexeme::Sign("/\\") => 49,
        Lexeme::Sign("\\/") => 50,
        Lexeme::Sign("#") => 51,
        Lexeme::Sign("+") => 52,
        Lexeme::Sign(">") => 53,
        Lexeme::Sign("*") => 54,
        Lexeme::Sign("\\cdot") => 117,
        Lexeme::Sign("~>") => 122,
        Lexeme::Sign("-+->") => 123,
        _ => return None,
    };
    codes::infix(code).map(|(_, rank)| (code, rank))
}

/// An expression in the making.
struct Making<'t> {
    arena: Vec<Node>,
    frames: Vec<Frame<'t>>,
}

/// What comes after an operand.
enum After {
    /// The operand has grown.
    Operand(usize),
    /// Another operand is wanted.
    Wanted,
    /// The expression is complete.
    Complete(usize),
}

impl Making<'_> {
    fn node(&mut self, token: Token, arguments: Vec<usize>) -> usize {
        self.arena.push(Node { token, arguments });
        self.arena.len() - 1
    }

    fn built_in(&mut self, code: u8, arguments: Vec<usize>) -> usize {
        self.node(Token::BuiltIn(code), arguments)
    }

    /// The rank of the infix operator that waits for its right side, if one does.
    fn waiting(&self) -> Option<u8> {
        match self.frames.last() {
            Some(Frame::Infix { code, .. }) => codes::infix(*code).map(|(_, rank)| rank),
            _ => None,
        }
    }

    fn flatten(&self, root: usize) -> Vec<Token> {
        let mut tokens = Vec::with_capacity(self.arena.len());
        let mut waiting = vec![root];
        while let Some(at) = waiting.pop() {
            tokens.push(self.arena[at].token);
            waiting.extend(self.arena[at].arguments.iter().rev());
        }
        tokens
    }
}

impl<'t> Parser<'t> {
    /// Reads an expression, as far as it goes.
    pub fn expression(&mut self, scope: &mut Scope<'t>) -> Result<Expr, ParseError> {
        let start = self.place();
        let mut making = Making {
            arena: Vec::new(),
            frames: Vec::new(),
        };
        loop {
            let Some(mut node) = self.operand(scope, &mut making)? else {
                continue;
            };
            loop {
                match self.after(scope, &mut making, node)? {
                    After::Operand(grown) => node = grown,
                    After::Wanted => break,
                    After::Complete(root) => {
                        return Expr::from_tokens(making.flatten(root))
                            .map_err(|fault| ParseError::new(start, fault.to_string()));
                    }
                }
            }
        }
    }

    /// Reads the beginning of an operand; `None` if that leaves another operand wanted.
    fn operand(
        &mut self,
        scope: &mut Scope<'t>,
        making: &mut Making<'t>,
    ) -> Result<Option<usize>, ParseError> {
        let place = self.place();
        match self.peek() {
            Lexeme::Name(_) => self.name(scope, making),
            Lexeme::Raw(..) | Lexeme::Number(_) => self.leaf(making).map(Some),
            Lexeme::BuiltIn(digits) => {
                let code = self.code(digits)?;
                if codes::binds(code) {
                    return self.fail(format!(
                        "code {code} binds a variable: write `bind{code} x : e`, or `bind{code} x \\in S : e` over a set"
                    ));
                }
                self.advance();
                match codes::arguments(code) {
                    Some(0) => {
                        if self.is("(") {
                            return self.fail(format!("`op{code}` takes no arguments"));
                        }
                        Ok(Some(making.built_in(code, Vec::new())))
                    }
                    Some(wanted) => {
                        let open = self.place();
                        let wanted = counted(wanted);
                        self.expect("(", &format!("and {wanted} of `op{code}`"))?;
                        making.frames.push(Frame::Arguments {
                            head: Head::BuiltIn(code),
                            arguments: Vec::new(),
                            open,
                        });
                        Ok(None)
                    }
                    None => self.fail(format!("no built-in has the code {code}")),
                }
            }
            Lexeme::Sign("(") => {
                self.advance();
                making.frames.push(Frame::Parentheses { open: place });
                Ok(None)
            }
            Lexeme::Sign("[") => self.action(making, codes::SQUARE, "]_"),
            Lexeme::Sign("<<") => self.action(making, codes::ANGLE, ">>_"),
            Lexeme::Sign(sign @ ("[]" | "<>")) => {
                self.loose(making, sign)?;
                self.advance();
                if sign == "[]" && self.is("[") {
                    return self.action(making, codes::BOX_SQUARE, "]_");
                }
                if sign == "<>" && self.is("<<") {
                    return self.action(making, codes::DIAMOND_ANGLE, ">>_");
                }
                let code = if sign == "[]" {
                    codes::BOX
                } else {
                    codes::DIAMOND
                };
                making.frames.push(Frame::Prefix { code });
                Ok(None)
            }
            Lexeme::Word(word @ ("ENABLED" | "UNCHANGED")) => {
                self.loose(making, word)?;
                self.advance();
                let code = if word == "ENABLED" { 113 } else { 114 };
                making.frames.push(Frame::Prefix { code });
                Ok(None)
            }
            Lexeme::Fairness(code) => {
                self.advance();
                let open = self.place();
                if self.accept("(") {
                    making.frames.push(Frame::FairSubscript { code, open });
                    return Ok(None);
                }
                let subscript = self.subscript(scope, making)?;
                self.fair_action(making, code, subscript)
            }
            Lexeme::Sign("\\E") => self.binder(scope, making, Some(128), Some(132)),
            Lexeme::Sign("\\A") => self.binder(scope, making, Some(129), Some(133)),
            Lexeme::Word("CHOOSE") => self.binder(scope, making, Some(130), Some(134)),
            Lexeme::Sign("\\EE") => self.binder(scope, making, Some(140), None),
            Lexeme::Sign("\\AA") => self.binder(scope, making, Some(141), None),
            Lexeme::Binder(digits) => {
                let code = self.code(digits)?;
                if !codes::binds(code) {
                    return self.fail(format!(
                        "code {code} is not a binder: binders are 128 to 141"
                    ));
                }
                if codes::binds_over_set(code) {
                    self.binder(scope, making, None, Some(code))
                } else {
                    self.binder(scope, making, Some(code), None)
                }
            }
            Lexeme::Sign("/\\" | "\\/") => self.fail(
                "lists with a leading `/\\` or `\\/` are left out; write `a /\\ b` with parentheses where needed",
            ),
            Lexeme::Word("INSTANCE") => {
                self.fail("INSTANCE stands by itself or directly after `==`")
            }
            Lexeme::Word(
                word @ ("IF" | "THEN" | "ELSE" | "CASE" | "OTHER" | "LET" | "IN" | "LAMBDA"
                | "DOMAIN" | "SUBSET" | "UNION" | "EXCEPT" | "LOCAL" | "RECURSIVE"),
            ) => self.fail(format!(
                "`{word}` is a word of TLA+ that this notation leaves out; a built-in without a sign is written by its code, as in `op96(a, b, c)`"
            )),
            found => self.fail(format!("expected an expression, found {found}")),
        }
    }

    /// Refuses a prefix operator or a binder right after an operator that binds tighter.
    fn loose(&self, making: &Making<'t>, sign: &str) -> Result<(), ParseError> {
        if making.waiting().is_some_and(|rank| rank > rank::PREFIX) {
            return self.fail(format!(
                "put parentheses around what begins with `{sign}` here"
            ));
        }
        Ok(())
    }

    /// The code in `op60` or `bind131`.
    fn code(&self, digits: &str) -> Result<u8, ParseError> {
        match digits.parse::<u8>() {
            Ok(code) if codes::arguments(code).is_some() => Ok(code),
            _ => self.fail(format!("no built-in has the code {digits}")),
        }
    }

    /// Opens `[A]_v` or `<<A>>_v`.
    fn action(
        &mut self,
        making: &mut Making<'t>,
        code: u8,
        close: &'static str,
    ) -> Result<Option<usize>, ParseError> {
        let (_, open) = self.advance();
        making.frames.push(Frame::Action { code, open, close });
        Ok(None)
    }

    fn fair_action(
        &mut self,
        making: &mut Making<'t>,
        code: u8,
        subscript: usize,
    ) -> Result<Option<usize>, ParseError> {
        let open = self.place();
        self.expect("(", "and the action, as in `WF_v(A)`")?;
        making.frames.push(Frame::FairAction {
            code,
            subscript,
            open,
        });
        Ok(None)
    }

    /// A literal, or an index without a name.
    fn leaf(&mut self, making: &mut Making<'t>) -> Result<usize, ParseError> {
        let token = match self.peek() {
            Lexeme::Raw('p', digits) => match digits.parse() {
                Ok(index) => Token::Parameter(index),
                Err(_) => return self.fail("the index of a parameter is 0 to 255"),
            },
            Lexeme::Raw('b', digits) => match digits.parse() {
                Ok(index) => Token::Bound(index),
                Err(_) => return self.fail("the index of a bound variable is 0 to 65535"),
            },
            _ => Token::Literal(self.number(0, 65535, "a literal")? as u16),
        };
        if !matches!(token, Token::Literal(_)) {
            self.advance();
        }
        Ok(making.node(token, Vec::new()))
    }

    /// The subscript of `[A]_v` and the like, where it is not in parentheses.
    fn subscript(
        &mut self,
        scope: &mut Scope<'t>,
        making: &mut Making<'t>,
    ) -> Result<usize, ParseError> {
        match self.peek() {
            Lexeme::Name(word) => {
                let (_, place) = self.advance();
                if self.is("!") {
                    return self.fail("put parentheses around the subscript, as in `[A]_(I!v)`");
                }
                if let Some(token) = self.local(scope, word, place)? {
                    return Ok(making.node(token, Vec::new()));
                }
                let name = self.operator(scope, word, place)?;
                Ok(making.node(Token::Name { name, arguments: 0 }, Vec::new()))
            }
            Lexeme::Raw(..) | Lexeme::Number(_) => self.leaf(making),
            found => self.fail(format!(
                "expected a subscript (a name, or an expression in parentheses), found {found}"
            )),
        }
    }

    /// The token of a parameter or bound variable, if the word is one.
    fn local(
        &self,
        scope: &Scope<'t>,
        word: &str,
        place: Position,
    ) -> Result<Option<Token>, ParseError> {
        let fault = |message: &str| Err(ParseError::new(place, message));
        Ok(Some(match scope.visible.get(word) {
            None => return Ok(None),
            Some(&Local::Parameter(index)) => match u8::try_from(index) {
                Ok(index) => Token::Parameter(index),
                Err(_) => return fault("a file cannot name a parameter after the 256th"),
            },
            Some(&Local::Bound(depth)) => match u16::try_from(scope.depth - 1 - depth) {
                Ok(index) => Token::Bound(index),
                Err(_) => return fault("more than 65536 binders around a variable"),
            },
        }))
    }

    /// The number of an operator that an expression names.
    fn operator(
        &mut self,
        scope: &mut Scope<'t>,
        word: &'t str,
        place: Position,
    ) -> Result<u16, ParseError> {
        if let Some(first) = scope.locals.get(word) {
            return Err(ParseError::new(
                place,
                format!("`{word}` is a parameter or bound variable of this field ({first}) and is used here outside its scope"),
            ));
        }
        scope.operators.entry(word).or_insert(place);
        self.resolve(Space::Operators, word, place)
    }

    /// An operator name where one must come: after `!`.
    fn operator_name(&mut self, scope: &mut Scope<'t>) -> Result<u16, ParseError> {
        let (word, place) = self.identifier("the name of an operator after `!`")?;
        if scope.visible.contains_key(word) {
            return Err(ParseError::new(
                place,
                format!("`{word}` is a parameter or bound variable here, not an operator"),
            ));
        }
        self.operator(scope, word, place)
    }

    /// An operand that begins with a name.
    fn name(
        &mut self,
        scope: &mut Scope<'t>,
        making: &mut Making<'t>,
    ) -> Result<Option<usize>, ParseError> {
        let (word, place) = self.identifier("a name")?;
        if let Some(token) = self.local(scope, word, place)? {
            if self.is("(") {
                return self.fail(format!(
                    "operators as arguments are left out: `{word}` is a parameter or bound variable and takes no arguments"
                ));
            }
            if self.is("!") {
                return self.fail(format!(
                    "`{word}` is a parameter or bound variable here, not an instance"
                ));
            }
            return Ok(Some(making.node(token, Vec::new())));
        }
        let name = self.operator(scope, word, place)?;
        let head = if self.accept("!") {
            Head::Instance(name, self.operator_name(scope)?)
        } else {
            Head::Name(name)
        };
        self.arguments(making, head, Vec::new())
    }

    /// Opens the arguments of a name if there are any.
    fn arguments(
        &mut self,
        making: &mut Making<'t>,
        head: Head,
        arguments: Vec<usize>,
    ) -> Result<Option<usize>, ParseError> {
        let open = self.place();
        if self.is("!") {
            return self
                .fail("a name has at most one `!`: instances inside instances are left out");
        }
        if self.accept("(") {
            making.frames.push(Frame::Arguments {
                head,
                arguments,
                open,
            });
            return Ok(None);
        }
        self.applied(making, head, arguments, open).map(Some)
    }

    /// A name or built-in with all its arguments.
    fn applied(
        &self,
        making: &mut Making<'t>,
        head: Head,
        arguments: Vec<usize>,
        open: Position,
    ) -> Result<usize, ParseError> {
        let count = arguments.len();
        let written = u8::try_from(count)
            .map_err(|_| ParseError::new(open, "an operator has at most 255 arguments"));
        let token = match head {
            Head::Name(name) => Token::Name {
                name,
                arguments: written?,
            },
            Head::Instance(instance, name) => Token::Instance {
                instance,
                name,
                arguments: written?,
            },
            Head::BuiltIn(code) => {
                let wanted = codes::arguments(code).unwrap_or(0);
                if count != wanted {
                    return Err(ParseError::new(
                        open,
                        format!("`op{code}` takes {}, not {count}", counted(wanted)),
                    ));
                }
                Token::BuiltIn(code)
            }
        };
        Ok(making.node(token, arguments))
    }

    /// Reads a binder up to its body or to its set. `plain` is its code without a set, `over` its
    /// code with one.
    fn binder(
        &mut self,
        scope: &mut Scope<'t>,
        making: &mut Making<'t>,
        plain: Option<u8>,
        over: Option<u8>,
    ) -> Result<Option<usize>, ParseError> {
        let sign = self.peek().to_string();
        self.loose(making, sign.trim_matches('`'))?;
        self.advance();
        let (word, place) = self.identifier("the name of a bound variable")?;
        if self.is(",") {
            return self.fail("a binder binds one variable: write `\\E x : \\E y : e`");
        }
        if self.is("\\in") {
            let Some(code) = over else {
                return self.fail(format!("{sign} binds without a set: write `{word} : e`"));
            };
            self.advance();
            let count = scope.reserve();
            making.frames.push(Frame::Set {
                code,
                word,
                place,
                count,
            });
            return Ok(None);
        }
        let Some(code) = plain else {
            return self.fail(format!(
                "{sign} binds over a set: write `{word} \\in S : e`"
            ));
        };
        self.expect(":", "and the body of the binder")?;
        let count = scope.reserve();
        self.open_bound(scope, word, place, count)?;
        making.frames.push(Frame::Body {
            code,
            word,
            set: None,
        });
        Ok(None)
    }

    fn open_bound(
        &mut self,
        scope: &mut Scope<'t>,
        word: &'t str,
        place: Position,
        count: usize,
    ) -> Result<(), ParseError> {
        let local = Local::Bound(scope.depth);
        self.open_local(scope, word, place, local, count)?;
        scope.depth += 1;
        Ok(())
    }

    /// Goes on after an operand.
    fn after(
        &mut self,
        scope: &mut Scope<'t>,
        making: &mut Making<'t>,
        node: usize,
    ) -> Result<After, ParseError> {
        if self.accept("'") {
            return Ok(After::Operand(making.built_in(codes::PRIME, vec![node])));
        }
        if let Some((code, rank)) = infix(self.peek()) {
            let left = self.reduce(making, node, code, rank)?;
            self.advance();
            making.frames.push(Frame::Infix { code, left });
            return Ok(After::Wanted);
        }
        let node = close(scope, making, node);
        self.structure(scope, making, node)
    }

    /// Completes what binds tighter than the infix operator that is next.
    fn reduce(
        &self,
        making: &mut Making<'t>,
        mut node: usize,
        code: u8,
        rank: u8,
    ) -> Result<usize, ParseError> {
        loop {
            match making.frames.last() {
                Some(&Frame::Infix { code: before, left }) => {
                    let (sign, other) = codes::infix(before).unwrap_or(("", rank::ATOM));
                    if other < rank {
                        return Ok(node);
                    }
                    let alone = matches!(rank, rank::RELATION | rank::LEADS);
                    if other == rank && (alone || before != code) {
                        return self.fail(format!(
                            "put parentheses: `{sign}` and {} have no order between them",
                            self.peek()
                        ));
                    }
                    making.frames.pop();
                    node = making.built_in(before, vec![left, node]);
                }
                Some(&Frame::Prefix { code: before }) => {
                    if rank > rank::PREFIX {
                        let sign = codes::prefix(before).unwrap_or("").trim_end();
                        return self.fail(format!(
                            "put parentheses: `{sign}` and {} have no order between them",
                            self.peek()
                        ));
                    }
                    making.frames.pop();
                    node = making.built_in(before, vec![node]);
                }
                _ => return Ok(node),
            }
        }
    }

    /// Goes on after an operand that no operator follows: closes the innermost form.
    fn structure(
        &mut self,
        scope: &mut Scope<'t>,
        making: &mut Making<'t>,
        node: usize,
    ) -> Result<After, ParseError> {
        let Some(frame) = making.frames.pop() else {
            return Ok(After::Complete(node));
        };
        match frame {
            Frame::Parentheses { open } => {
                self.close_with(")", "(", open)?;
                Ok(After::Operand(node))
            }
            Frame::Arguments {
                head,
                mut arguments,
                open,
            } => {
                arguments.push(node);
                if self.accept(",") {
                    making.frames.push(Frame::Arguments {
                        head,
                        arguments,
                        open,
                    });
                    return Ok(After::Wanted);
                }
                self.close_with(")", "(", open)?;
                if let (Head::Name(instance), true) = (head, self.is("!")) {
                    self.advance();
                    let head = Head::Instance(instance, self.operator_name(scope)?);
                    return Ok(match self.arguments(making, head, arguments)? {
                        Some(node) => After::Operand(node),
                        None => After::Wanted,
                    });
                }
                let node = self.applied(making, head, arguments, open)?;
                Ok(After::Operand(node))
            }
            Frame::Set {
                code,
                word,
                place,
                count,
            } => {
                self.expect(":", "and the body of the binder")?;
                self.open_bound(scope, word, place, count)?;
                making.frames.push(Frame::Body {
                    code,
                    word,
                    set: Some(node),
                });
                Ok(After::Wanted)
            }
            Frame::Action { code, open, close } => {
                let sign = if close == "]_" { "[" } else { "<<" };
                self.close_with(close, sign, open)?;
                let open = self.place();
                if self.accept("(") {
                    making.frames.push(Frame::Subscript {
                        code,
                        action: node,
                        open,
                    });
                    return Ok(After::Wanted);
                }
                let subscript = self.subscript(scope, making)?;
                if self.is("(") {
                    return self.fail("put parentheses around the subscript, as in `[A]_(F(x))`");
                }
                self.subscripted(code)?;
                let node = making.built_in(code, vec![node, subscript]);
                Ok(After::Operand(node))
            }
            Frame::Subscript { code, action, open } => {
                self.close_with(")", "(", open)?;
                self.subscripted(code)?;
                let node = making.built_in(code, vec![action, node]);
                Ok(After::Operand(node))
            }
            Frame::FairSubscript { code, open } => {
                self.close_with(")", "(", open)?;
                self.fair_action(making, code, node)?;
                Ok(After::Wanted)
            }
            Frame::FairAction {
                code,
                subscript,
                open,
            } => {
                self.close_with(")", "(", open)?;
                let node = making.built_in(code, vec![subscript, node]);
                Ok(After::Operand(node))
            }
            // `close` has completed all of these.
            Frame::Infix { .. } | Frame::Prefix { .. } | Frame::Body { .. } => {
                self.fail("the expression does not end here")
            }
        }
    }

    /// Refuses what could be read in two ways after `[A]_v` and the like.
    fn subscripted(&self, code: u8) -> Result<(), ParseError> {
        if self.is("'") {
            return self.fail("put parentheses: `([A]_v)'` or `[A]_(v')`");
        }
        let temporal = matches!(code, codes::BOX_SQUARE | codes::DIAMOND_ANGLE);
        if temporal && infix(self.peek()).is_some_and(|(_, rank)| rank > rank::PREFIX) {
            return self.fail(format!(
                "put parentheses around what stands before {} here",
                self.peek()
            ));
        }
        Ok(())
    }

    fn close_with(
        &mut self,
        sign: &'static str,
        opened: &str,
        open: Position,
    ) -> Result<(), ParseError> {
        if self.accept(sign) {
            return Ok(());
        }
        let found = self.peek();
        self.fail(format!(
            "expected `{sign}` to close the `{opened}` of {open}, found {found}"
        ))
    }
}

/// Completes every operator and binder that ends here.
fn close<'t>(scope: &mut Scope<'t>, making: &mut Making<'t>, mut node: usize) -> usize {
    loop {
        match making.frames.last() {
            Some(&Frame::Infix { code, left }) => node = making.built_in(code, vec![left, node]),
            Some(&Frame::Prefix { code }) => node = making.built_in(code, vec![node]),
            Some(&Frame::Body { code, word, set }) => {
                scope.visible.remove(word);
                scope.depth -= 1;
                let mut arguments: Vec<usize> = set.into_iter().collect();
                arguments.push(node);
                node = making.built_in(code, arguments);
            }
            _ => return node,
        }
        making.frames.pop();
    }
}
