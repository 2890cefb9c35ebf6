//! Realistic files, and families of files and queries that are small on paper and huge in meaning.

use crate::accepted::LARGEST;
use crate::cards::CARDS;
use crate::cases::Call;
use crate::checker::Checker;
use crate::expansions;
use crate::long;
use crate::nesting;
use crate::queries::of_length;
use crate::syntax::{
    self, always, and, b, brought, instance, lit, n, op, p, prime, tree, tree_of, Expr, Field,
};

/// A file with a call that may take long.
#[derive(Clone, Debug)]
pub struct Family {
    pub label: String,
    pub file: Vec<u8>,
    pub call: Call,
}

/// Memory to lend, kept from call to call.
#[derive(PartialEq)]
pub struct Memory {
    cards: Vec<u8>,
    out: Vec<u8>,
}

impl Default for Memory {
    fn default() -> Self {
        Memory::of(CARDS)
    }
}

impl Memory {
    /// With so many bytes for the cards.
    pub fn of(cards: usize) -> Self {
        Memory {
            cards: vec![0; cards],
            out: vec![0; 70_000],
        }
    }

    /// What was lent for the cards.
    pub fn cards(&self) -> &[u8] {
        &self.cards
    }

    /// What was lent for the output.
    pub fn out(&self) -> &[u8] {
        &self.out
    }
}

impl Family {
    /// The bytes that a call reads: the file's, and those of a query's expression.
    pub fn bytes(&self) -> usize {
        let asked = match &self.call {
            Call::Level { expr, .. } | Call::Expand { expr, .. } => expr.len(),
            _ => 0,
        };
        self.file.len() + asked
    }

    /// Whether this checker offers the call.
    pub fn is_answered_by(&self, checker: &dyn Checker) -> bool {
        self.call.wants() <= checker.offer()
    }

    /// The packed reply. A clock around this times the checker alone: nothing is allocated here.
    pub fn call(&self, checker: &dyn Checker, memory: &mut Memory) -> u64 {
        let room = match self.call {
            Call::Expand { room, .. } => room,
            _ => 0,
        };
        let out = &mut memory.out[..room];
        self.call.make(checker, &self.file, &mut memory.cards, out)
    }
}

pub(crate) fn family(label: &str, file: &[u8], call: Call) -> Family {
    assert!(file.len() <= LARGEST, "{label}: {} bytes", file.len());
    Family {
        label: label.into(),
        file: file.to_vec(),
        call,
    }
}

pub(crate) fn expand(module: u16, expr: Vec<u8>, room: usize) -> Call {
    Call::Expand {
        module,
        expr,
        params: 0,
        room,
    }
}

pub(crate) fn level(module: u16, expr: Vec<u8>) -> Call {
    Call::Level {
        module,
        expr,
        levels: Vec::new(),
    }
}

/// A module as specifications have them: types, a first state, actions, fairness, theorems; the
/// last ones refine the first. The file has at most so many bytes.
pub fn realistic(size: usize) -> Vec<u8> {
    const NUMBERS: u16 = 1;
    let mut fields = vec![
        Field::Module(NUMBERS),
        Field::Constant(1, 0),
        Field::Constant(2, 1),
        Field::Constant(3, 0),
        Field::Assume(op(53, &[n(1, &[]), lit(0)])),
        Field::Definition(4, 2, op(96, &[op(53, &[p(0), p(1)]), p(0), p(1)])),
        Field::Definition(5, 1, op(52, &[p(0), n(1, &[])])),
        Field::End,
    ];
    let mut bytes = syntax::file(&fields).len();
    let mut module = 10;
    let mut first = None;
    while module < 24 {
        let mut inside = vec![
            Field::Module(module),
            Field::Extends(vec![NUMBERS]),
            Field::Variable(20),
            Field::Variable(21),
            Field::Variable(22),
        ];
        let v = |name: u16| n(name, &[]);
        let state = op(97, &[v(20), v(21), v(22)]);
        inside.push(Field::Definition(
            30,
            0,
            and(
                op(60, &[v(20), v(3)]),
                op(132, &[v(3), op(53, &[b(0), v(21)])]),
            ),
        ));
        inside.push(Field::Definition(
            31,
            0,
            tree(3, &|i| op(48, &[v(20 + i as u16), lit(i as u16)])),
        ));
        let actions = (size / 150).clamp(3, 10) as u16;
        for action in 0..actions {
            let guard = op(53, &[n(4, &[v(20), p(0)]), n(2, &[v(21)])]);
            let change = op(48, &[prime(v(20 + action % 3)), n(5, &[p(0)])]);
            let rest = op(114, &[v(20 + (action + 1) % 3)]);
            let choice = op(133, &[v(3), op(51, &[b(0), v(22)])]);
            let body = and(and(guard, change), and(rest, choice));
            inside.push(Field::Definition(40 + action, 1, body));
        }
        let next = tree(actions as usize, &|i| n(40 + i as u16, &[b(0)]));
        inside.push(Field::Definition(32, 0, op(132, &[v(3), next])));
        let fair = op(124, &[state.clone(), v(32)]);
        let boxed = op(120, &[v(32), state]);
        inside.push(Field::Definition(33, 0, and(v(31), and(boxed, fair))));
        inside.push(Field::Theorem(op(55, &[v(33), always(v(30))])));
        if let Some(of) = first.filter(|_| module.is_multiple_of(5)) {
            let with = [(22, n(5, &[v(20)]))];
            inside.push(instance(60, 0, of, &with));
            inside.push(Field::Theorem(op(55, &[v(33), brought(60, 33, &[])])));
        }
        // More theorems, up to the size wanted.
        let own = syntax::file(&inside).len() + 3;
        if bytes + own > size {
            break;
        }
        bytes += own;
        let share = size * (module as usize - 9) / 14;
        for number in 0..40 {
            let goal = op(122, &[op(53, &[v(20), lit(number)]), n(4, &[v(21), v(22)])]);
            let step = op(120, &[n(40 + number % actions, &[lit(number)]), v(20)]);
            let theorem = Field::Theorem(op(55, &[v(33), and(goal, step)]));
            let length = theorem.bytes().len();
            if bytes + length <= share {
                bytes += length;
                inside.push(theorem);
            }
        }
        inside.push(Field::End);
        fields.extend(inside);
        first = first.or(Some(module));
        module += 1;
    }
    // What is left goes into one last theorem.
    let mut file = syntax::file(&fields);
    let left = size.saturating_sub(file.len() + 11);
    if left > 60 {
        let end = file.len() - 3;
        file.truncate(end);
        let leaf = |i: usize| op(53, &[n(20 + (i % 3) as u16, &[]), lit(i as u16)]);
        Field::Theorem(tree_of(left, &leaf)).write(&mut file);
        Field::End.write(&mut file);
    }
    file
}

fn masked(index: usize) -> Expr {
    // [] of a set of parameters, or of ENABLED of them: neither takes every level.
    let set = index % 8;
    let inner = (0..3)
        .filter(|i| set >> i & 1 == 1)
        .map(p)
        .fold(lit(0), and);
    always(match index >> 3 & 1 {
        0 => inner,
        _ => op(113, &[inner]),
    })
}

/// A tower: definition 1 is the bottom, each other one a step over the one before.
fn tower(bottom: Expr, step: &dyn Fn(u16) -> Expr) -> Vec<u8> {
    let mut fields = vec![
        Field::Module(1),
        Field::Variable(500),
        Field::Definition(1, 1, bottom),
    ];
    fields.extend((2..=255).map(|d| Field::Definition(d, 1, step(d - 1))));
    fields.push(Field::Definition(400, 1, lit(7)));
    fields.push(Field::End);
    syntax::file(&fields)
}

fn twice(d: u16) -> Expr {
    n(d, &[n(d, &[p(0)])])
}

fn both(d: u16) -> Expr {
    and(n(d, &[p(0)]), n(d, &[p(0)]))
}

fn instances_of_a_large_body(label: &str, leaf: &dyn Fn(usize) -> Expr, named: bool) -> Family {
    let mut fields = vec![Field::Module(9), Field::End, Field::Module(1)];
    fields.push(Field::Constant(1, 3));
    fields.push(Field::Definition(2, 3, tree_of(26_900, leaf)));
    if named {
        fields.push(instance(7, 0, 9, &[]));
    }
    fields.extend([Field::End, Field::Module(2), Field::Constant(1, 3)]);
    let count = if named { 1 } else { 255 };
    fields.extend((0..count).map(|i| instance(100 + i, 0, 1, &[])));
    fields.push(Field::End);
    family(label, &syntax::file(&fields), Call::Check)
}

/// Fifteen modules, each bringing the one before, with substitutes that use their names often.
fn chain(size: usize, leaf: &dyn Fn(usize) -> Expr, constant: &Expr) -> Vec<Field> {
    let mut fields = vec![
        Field::Module(1),
        Field::Constant(1, 3),
        Field::Constant(2, 0),
        Field::Definition(
            3,
            0,
            tree_of(size, &|_| n(1, &[n(2, &[]), lit(0), n(2, &[])])),
        ),
        Field::End,
    ];
    for module in 2..=15 {
        fields.extend([
            Field::Module(module),
            Field::Constant(1, 3),
            Field::Constant(2, 0),
            instance(
                0,
                0,
                module - 1,
                &[(1, tree_of(size, leaf)), (2, constant.clone())],
            ),
            Field::End,
        ]);
    }
    fields
}

/// A definition brought through the whole chain by 200 instances.
fn chain_under_instances() -> Vec<u8> {
    let uses = |_: usize| n(1, &[p(0), p(1), n(2, &[])]);
    let mut fields = chain(1_600, &uses, &n(2, &[]));
    fields.extend([Field::Module(16), Field::Variable(5)]);
    for i in 0..200 {
        let k = and(p(0), and(p(1), p(2)));
        fields.push(instance(100 + i, 0, 15, &[(1, k), (2, n(5, &[]))]));
    }
    fields.push(Field::End);
    syntax::file(&fields)
}

/// The families that are slow to check if they are checked badly.
pub fn checks() -> Vec<Family> {
    let mut all = vec![
        instances_of_a_large_body("a: 255 instances, parameters", &|i| p((i % 3) as u8), false),
        instances_of_a_large_body(
            "a: 255 instances, calls",
            &|_| n(1, &[p(0), p(1), p(2)]),
            false,
        ),
        instances_of_a_large_body("a: 255 instances, masks", &masked, false),
    ];
    // b
    all.push(family(
        "b: chain of 15 under 200 instances",
        &chain_under_instances(),
        Call::Check,
    ));
    let mixed = |_: usize| n(1, &[p(0), n(2, &[]), p(2)]);
    let mut fields = chain(1_000, &mixed, &tree_of(500, &|_| n(2, &[])));
    fields.extend([Field::Module(16), Field::Constant(1, 3)]);
    let mut bytes = syntax::file(&fields).len();
    let mut count = 0;
    while bytes < LARGEST - 40 && count < 240 {
        let field = instance(100 + count, 3, 15, &[(2, p(2))]);
        bytes += field.bytes().len();
        fields.push(field);
        count += 1;
    }
    fields.push(Field::End);
    all.push(family(
        "b: the same with 3 parameters",
        &syntax::file(&fields),
        Call::Check,
    ));
    all.push(family(
        "c: doubling tower",
        &tower(p(0), &both),
        Call::Check,
    ));
    // d
    let body = tree_of(30_000, &masked);
    let fields = [Field::Module(1), Field::Definition(1, 3, body), Field::End];
    all.push(family(
        "d: a body full of masks",
        &syntax::file(&fields),
        Call::Check,
    ));
    let mut fields = vec![Field::Module(1), Field::Definition(1, 3, tree(16, &masked))];
    for d in 2..=100 {
        let call = |_: usize| n(d - 1, &[p(0), p(1), p(2)]);
        fields.push(Field::Definition(d, 3, tree(25, &call)));
    }
    fields.push(Field::End);
    all.push(family(
        "d: calls full of masks",
        &syntax::file(&fields),
        Call::Check,
    ));
    all.push(family(
        "e: 3,600 instances in 15 modules",
        &named_instances(14),
        Call::Check,
    ));
    // f
    let mut fields = vec![
        Field::Module(1),
        Field::Definition(1, 0, lit(0)),
        Field::End,
    ];
    for module in 2..=16 {
        let before: Vec<u16> = (1..module).collect();
        let mut names: Vec<u16> = before.clone();
        if module == 16 {
            names = before.iter().copied().cycle().take(15_000).collect();
        }
        fields.extend([
            Field::Module(module),
            Field::Extends(names),
            Field::Definition(module, 0, n(module - 1, &[])),
            Field::End,
        ]);
    }
    all.push(family(
        "f: EXTENDS of all before",
        &syntax::file(&fields),
        Call::Check,
    ));
    // g
    let (file, last) = full_tables();
    let names = tree(10_000, &|i| n(last - (i % 200) as u16, &[])).bytes();
    all.push(family("g: 10,000 names looked up", &file, level(2, names)));
    all.push(instances_of_a_large_body(
        "h: refused 16 after all else",
        &|i| masked(i),
        true,
    ));
    all
}

/// Named instances of an empty module, extended by so many modules in turn.
fn named_instances(modules: u16) -> Vec<u8> {
    let mut fields = vec![Field::Module(1), Field::End, Field::Module(2)];
    let room = LARGEST - 16 - 13 * modules as usize - 3;
    fields.extend((1..=(room / 9) as u16).map(|name| instance(name, 0, 1, &[])));
    fields.push(Field::End);
    for module in 3..3 + modules {
        fields.extend([
            Field::Module(module),
            Field::Extends(vec![module - 1]),
            Field::End,
        ]);
    }
    syntax::file(&fields)
}

/// As many instances, declarations and definitions as there is room for; the last definition's name.
pub(crate) fn full_tables() -> (Vec<u8>, u16) {
    let mut fields = vec![Field::Module(1), Field::End, Field::Module(2)];
    fields.extend((1..=64).map(Field::Variable));
    fields.extend((1_000..3_800).map(|name| instance(name, 0, 1, &[])));
    fields.extend((5_000..5_256).map(|name| Field::Definition(name, 0, n(1, &[]))));
    fields.push(Field::End);
    (syntax::file(&fields), 5_255)
}

/// The families that are slow to answer if they are answered badly. `large` adds queries of 30
/// to 64 MB.
pub fn queries(large: bool) -> Vec<Family> {
    let x = || n(500, &[]);
    let room = 65_535;
    let mut all = towers();
    all.extend(brought_queries());
    all.extend(expansions::all(large));
    all.extend(nesting::all());
    all.extend(long::all(large));
    all.extend([
        family(
            "i: identity tower",
            &tower(p(0), &twice),
            expand(1, n(255, &[x()]).bytes(), room),
        ),
        family(
            "i: tower too long",
            &tower(p(0), &both),
            expand(1, n(255, &[x()]).bytes(), room),
        ),
    ]);
    let nested = (0..25).fold(x(), |inner, _| n(255, &[inner]));
    all.push(family(
        "j: doubled, then dropped",
        &tower(p(0), &both),
        expand(1, n(400, &[nested]).bytes(), room),
    ));
    // l
    let mut fields = vec![Field::Module(1), Field::Definition(1, 2, and(p(0), p(1)))];
    for d in 2..=200 {
        fields.push(Field::Definition(d, 2, n(d - 1, &[p(0), p(1)])));
    }
    for d in 201..=213 {
        let below = || match d {
            201 => n(200, &[lit(1), lit(2)]),
            _ => n(d - 1, &[]),
        };
        fields.push(Field::Definition(d, 0, n(200, &[below(), below()])));
    }
    fields.push(Field::End);
    let pair = n(200, &[n(212, &[]), n(210, &[])]);
    all.push(family(
        "l: aliases under 20,479 tokens",
        &syntax::file(&fields),
        expand(1, pair.bytes(), room),
    ));
    // n: the chain turns the operator's arguments round and round.
    let turn = |_: usize| n(1, &[p(1), p(2), p(0)]);
    let mut fields = vec![
        Field::Module(1),
        Field::Constant(1, 3),
        Field::Definition(3, 3, tree(600, &|_| n(1, &[p(0), p(1), p(2)]))),
        Field::End,
    ];
    for module in 2..=15 {
        fields.extend([
            Field::Module(module),
            Field::Constant(1, 3),
            instance(0, 0, module - 1, &[(1, tree(1, &turn))]),
            Field::End,
        ]);
    }
    let outer = op(133, &[p(0), and(p(1), and(p(2), b(0)))]);
    fields.extend([
        Field::Module(16),
        instance(9, 0, 15, &[(1, outer)]),
        Field::End,
    ]);
    all.push(family(
        "n: a chain with operator substitutes",
        &syntax::file(&fields),
        expand(16, brought(9, 3, &[lit(1), lit(2), lit(3)]).bytes(), room),
    ));
    for (length, room) in [
        (65_534, 65_534),
        (65_535, 65_535),
        (65_535, 65_534),
        (65_536, 70_000),
    ] {
        let (file, expr) = of_length(length);
        let label = format!("p: length {length} into {room}");
        all.push(family(&label, &file, expand(1, expr, room)));
    }
    all
}

/// i: towers, asked for everything but an expansion.
fn towers() -> Vec<Family> {
    let top = n(255, &[n(500, &[])]).bytes();
    let mut all = Vec::new();
    for (what, file) in [
        ("identity", tower(p(0), &twice)),
        ("doubling", tower(p(0), &both)),
    ] {
        let mut add = |asked: &str, call| {
            let label = format!("i: {what} tower, {asked}");
            all.push(family(&label, &file, call));
        };
        add("level", level(1, top.clone()));
        add("alike", Call::Alike { a: 0, b: 254 });
        add("body", Call::Body { d: 254 });
    }
    all
}

/// b: the last of what a chain of 15 under 200 instances brings, asked for everything but an
/// expansion.
fn brought_queries() -> Vec<Family> {
    let file = &chain_under_instances();
    let [first, last] = [100, 299].map(|name| brought(name, 3, &[]));
    let query = and(first, last).bytes();
    // The chain has one definition in each of its modules.
    let last = 15 + 199;
    let asked = [
        ("level", level(16, query)),
        ("alike", Call::Alike { a: 0, b: last }),
        ("body", Call::Body { d: last }),
    ];
    asked
        .into_iter()
        .map(|(asked, call)| family(&format!("b: chain of 15, {asked}"), file, call))
        .collect()
}

/// Realistic files, each with a check and a level query.
pub fn usual() -> Vec<Family> {
    let mut all = Vec::new();
    for size in [1_024, 8_192, 32_768] {
        let file = realistic(size);
        let label = format!("realistic, {} bytes", file.len());
        let query = n(33, &[]).bytes();
        all.push(family(&format!("{label}: check"), &file, Call::Check));
        all.push(family(
            &format!("{label}: level"),
            &file,
            level(10, query.clone()),
        ));
        all.push(family(
            &format!("{label}: expand"),
            &file,
            expand(10, query, 65_535),
        ));
    }
    all
}
