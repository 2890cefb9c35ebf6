//! q: families with eight parameters or arguments, or four and four.

use crate::cases::Call;
use crate::families::{expand, family, level, Family};
use crate::syntax::{
    self, always, and, b, brought, instance, lit, n, op, p, tree, tree_of, Expr, Field,
};

/// The longest output that is of use.
const ROOM: usize = 65_535;
/// A definition that drops all its parameters but the last.
const LAST: u16 = 400;
const X: u16 = 500;

fn all() -> Vec<Expr> {
    (0..8).map(p).collect()
}

fn joined(parts: Vec<Expr>) -> Expr {
    parts.into_iter().reduce(and).expect("some")
}

/// The parameters, each in the next one's place.
fn turned() -> Vec<Expr> {
    (0..8).map(|index| p((index + 1) % 8)).collect()
}

fn module(inside: Vec<Field>) -> Vec<u8> {
    let mut fields = vec![Field::Module(1), Field::Variable(X)];
    fields.extend(inside);
    fields.push(Field::End);
    syntax::file(&fields)
}

/// Definition 1 is the bottom, each other one a step over the one before; the last one's number.
fn tower(bottom: Expr, step: &dyn Fn(u16) -> Expr) -> (Vec<u8>, u16) {
    let mut inside = vec![Field::Definition(1, 8, bottom)];
    inside.extend((2..=255).map(|d| Field::Definition(d, 8, step(d - 1))));
    inside.push(Field::Definition(LAST, 8, p(7)));
    (module(inside), 255)
}

/// A call whose first argument is such a call, and so on, so many deep.
fn nested(name: u16, depth: usize) -> Expr {
    (0..depth).fold(p(0), |inner, at| {
        let mut arguments = all();
        arguments[at % 8] = inner;
        n(name, &arguments)
    })
}

/// A call all of whose arguments are calls, down to the parameters.
fn full(name: u16, depth: usize) -> Expr {
    match depth {
        0 => p(3),
        _ => n(name, &vec![full(name, depth - 1); 8]),
    }
}

/// [] or ENABLED of some of the parameters: neither takes every level.
fn masked(index: usize) -> Expr {
    let used = (0..8).filter(|i| (index * 37) >> i & 1 == 1).map(p);
    let inner = used.fold(lit(0), and);
    match index % 2 {
        0 => always(inner),
        _ => op(113, &[inner]),
    }
}

/// Modules that each bring the one before, whose operator of eight arguments they turn round; then one
/// instance with eight parameters, for names that the first module's definition uses.
fn chain() -> Vec<u8> {
    let names: Vec<u16> = (11..19).collect();
    let declared = || {
        let constants = names.iter().map(|&name| Field::Constant(name, 0));
        [Field::Constant(1, 8)].into_iter().chain(constants)
    };
    let uses = |i: usize| n(names[i % 8], &[]);
    let call = n(1, &(0..8).map(uses).collect::<Vec<_>>());
    let mut fields = vec![Field::Module(1)];
    fields.extend(declared());
    let body = tree(20, &|_| call.clone());
    fields.extend([Field::Definition(3, 0, body), Field::End]);
    // 7 times 9 names are declared in all, and the last module has the 64th.
    for m in 2..=7 {
        fields.push(Field::Module(m));
        fields.extend(declared());
        let put = tree(12, &|_| n(1, &turned()));
        fields.extend([instance(0, 0, m - 1, &[(1, put)]), Field::End]);
    }
    fields.extend([Field::Module(8), Field::Constant(1, 8)]);
    let with: Vec<(u16, Expr)> = names.iter().copied().zip(all()).collect();
    fields.extend((0..60).map(|i| instance(100 + i, 8, 7, &with)));
    fields.push(Field::End);
    syntax::file(&fields)
}

/// Four parameters of an instance before the four of each definition: one large body brought often, or many
/// definitions brought at once.
fn four_and_four() -> Vec<Family> {
    let names = |i: usize| n(20 + (i % 4) as u16, &[]);
    let source = |defined: Vec<Field>| {
        let mut fields = vec![Field::Module(1)];
        fields.extend((20..24).map(|name| Field::Constant(name, 0)));
        fields.extend(defined);
        fields.extend([Field::End, Field::Module(2)]);
        fields
    };
    let with: Vec<(u16, Expr)> = (20..24).zip(all()).collect();
    let leaf = |i: usize| match i % 2 {
        0 => p((i / 2 % 4) as u8),
        _ => names(i / 2),
    };
    let large = tree_of(22_000, &leaf);
    let mut often = source(vec![Field::Definition(2, 4, large)]);
    often.extend((0..230).map(|i| instance(100 + i, 4, 1, &with)));
    often.push(Field::End);
    let define = |d: u16| Field::Definition(1_000 + d, 4, tree(24, &leaf));
    let mut at_once = source((0..128).map(define).collect());
    at_once.extend([instance(9, 4, 1, &with), Field::End]);
    let at_once = syntax::file(&at_once);
    let last = brought(9, 1_127, &all()).bytes();
    vec![
        named("4 and 4, 230 instances", &syntax::file(&often), Call::Check),
        named("4 and 4, 128 definitions", &at_once, Call::Check),
        named("4 and 4, level", &at_once, over(2, last.clone())),
        named("4 and 4, expanded", &at_once, expand_over(2, last)),
    ]
}

/// Levels at which most of a card has to be looked at.
const LEVELS: [u8; 8] = [0, 1, 3, 1, 3, 0, 1, 3];

fn over(module: u16, expr: Vec<u8>) -> Call {
    Call::Level {
        module,
        expr,
        levels: LEVELS.to_vec(),
    }
}

fn expand_over(module: u16, expr: Vec<u8>) -> Call {
    Call::Expand {
        module,
        expr,
        params: 8,
        room: ROOM,
    }
}

/// Queries of about so many bytes over eight parameters.
fn of_length(bytes: usize, size: &str) -> Vec<Family> {
    let file = module(vec![
        Field::Definition(1, 8, joined(all())),
        Field::Definition(LAST, 8, p(7)),
    ]);
    let wide = |leaf: &Expr| {
        let times = (bytes / (leaf.bytes().len() + 2)).max(1).ilog2();
        (0..times).fold(leaf.bytes(), |inner, _| {
            [&[4, 49], &inner[..], &inner[..]].concat()
        })
    };
    let dropped = |inner: &[u8]| {
        let mut call = vec![2];
        call.extend(LAST.to_be_bytes());
        call.push(8);
        call.extend(inner);
        call.extend([0, 0].repeat(6));
        [call, lit(8).bytes()].concat()
    };
    let parameters = wide(&joined(all()));
    let calls = wide(&n(1, &turned()));
    let mut all = Vec::new();
    let mut add = |what: &str, call| all.push(named(&format!("{size} {what}"), &file, call));
    add("of parameters", over(1, parameters.clone()));
    add("of parameters, too long", expand_over(1, parameters));
    add("of calls", over(1, calls.clone()));
    add("of calls, dropped", expand_over(1, dropped(&calls)));
    add("of calls, too long", expand_over(1, calls));
    all
}

fn named(what: &str, file: &[u8], call: Call) -> Family {
    family(&format!("q: {what}"), file, call)
}

/// As many definitions as there may be, each with every pair.
fn pairs() -> Vec<Family> {
    let define = |d| Field::Definition(d, 8, joined(all()));
    let file = module((1..=256).map(define).collect());
    let last = n(256, &turned()).bytes();
    vec![
        named("256 of eight, all pairs", &file, Call::Check),
        named("256 of eight, alike", &file, Call::Alike { a: 0, b: 255 }),
        named("256 of eight, level", &file, over(1, last)),
    ]
}

/// Definitions that each call the one before with all their parameters, turned by one.
fn turns() -> Vec<Family> {
    let (file, last) = tower(joined(all()), &|d| n(d, &turned()));
    let top = n(last, &vec![n(X, &[]); 8]).bytes();
    let deep = nested(last, 31).bytes();
    vec![
        named("254 turns of eight", &file, Call::Check),
        named("254 turns of eight, level", &file, level(1, top.clone())),
        named("254 turns of eight, expanded", &file, expand(1, top, ROOM)),
        named("254 turns, nested 32, level", &file, over(1, deep.clone())),
        named(
            "254 turns, nested 32, expanded",
            &file,
            expand_over(1, deep),
        ),
    ]
}

/// Each calls the one before in an argument of a call of the one before.
fn doublings() -> Vec<Family> {
    let step = |d: u16| {
        let mut arguments = turned();
        arguments[3] = n(d, &all());
        n(d, &arguments)
    };
    let (file, last) = tower(joined(all()), &step);
    let mut dropping = vec![n(X, &[]); 8];
    let top = n(last, &dropping);
    dropping[2] = top.clone();
    let dropping = n(LAST, &dropping).bytes();
    vec![
        named("254 doublings of eight", &file, Call::Check),
        named(
            "254 doublings, too long",
            &file,
            expand(1, top.bytes(), ROOM),
        ),
        named("254 doublings, dropped", &file, expand(1, dropping, ROOM)),
    ]
}

/// Calls in calls, as deep as they may be or as wide.
fn trees() -> Vec<Family> {
    let mut inside = vec![Field::Definition(1, 8, joined(all()))];
    inside.extend((2..=40).map(|d| Field::Definition(d, 8, nested(d - 1, 31))));
    let deep = module(inside);
    let wide = module(vec![
        Field::Definition(1, 8, joined(turned())),
        Field::Definition(2, 8, full(1, 4)),
        Field::Definition(3, 8, op(132, &[full(2, 3), b(0)])),
    ]);
    let top = n(3, &all()).bytes();
    vec![
        named("40 of calls nested 32", &deep, Call::Check),
        named("a tree of calls of eight", &wide, Call::Check),
        named(
            "a tree of calls of eight, level",
            &wide,
            over(1, top.clone()),
        ),
        named(
            "a tree of calls of eight, too long",
            &wide,
            expand_over(1, top),
        ),
    ]
}

/// Bodies in which every parameter is masked again and again.
fn masks() -> Vec<Family> {
    let with =
        |leaf: &dyn Fn(usize) -> Expr| module(vec![Field::Definition(1, 8, tree_of(29_000, leaf))]);
    let enabled = with(&|i| op(113, &[masked(2 * i + 1)]));
    let temporal = with(&|i| masked(2 * i));
    vec![
        named("a body full of masks", &enabled, Call::Check),
        named("a body full of other masks", &temporal, Call::Check),
    ]
}

fn chains() -> Vec<Family> {
    let file = chain();
    let top = brought(159, 3, &all()).bytes();
    vec![
        named("a chain under instances of eight", &file, Call::Check),
        named("a chain, level", &file, over(8, top.clone())),
        named("a chain, too long", &file, expand_over(8, top)),
    ]
}

/// All of them; queries of 256 KB, and if `large` of 64 MB too.
pub fn families(large: bool) -> Vec<Family> {
    let parts = [
        pairs(),
        turns(),
        doublings(),
        trees(),
        masks(),
        chains(),
        four_and_four(),
        of_length(256 << 10, "256 KB"),
    ];
    let mut all = parts.concat();
    if large {
        all.extend(of_length(64 << 20, "64 MB"));
    }
    all
}

#[cfg(test)]
mod tests {
    use super::*;
    use crate::cases::Case;
    use crate::checker::Reference;

    /// Every file is accepted; a query that is refused is so because its expansion is too long.
    #[test]
    fn as_meant() {
        for family in families(false) {
            let case = Case::new(&family.file, family.call.clone());
            let outcome = case.run(&Reference);
            let refusal = case.refusal(&outcome);
            let long = family.label.ends_with("too long").then_some((18, 0));
            assert_eq!(refusal, long, "{}", family.label);
        }
    }
}
