//! Files and queries that are small on paper and huge in meaning. Each has to end soon.

use super::build::*;
use crate::{check, expand, level, Cause, Limits, Refusal};
use std::time::{Duration, Instant};

fn timed<T>(what: &str, run: impl FnOnce() -> T) -> T {
    let start = Instant::now();
    let result = run();
    let time = start.elapsed();
    println!("{what}: {:.2} ms", time.as_secs_f64() * 1e3);
    assert!(time < Duration::from_secs(10), "{what} took {time:?}");
    result
}

fn checked(what: &str, file: &[u8]) -> Result<u32, Refusal> {
    assert!(file.len() <= Limits::FILE, "{what}: {} bytes", file.len());
    let mut cards = vec![0; Limits::CARDS];
    timed(what, || check(file, &mut cards))
}

fn expanded(what: &str, file: &[u8], module: u16, query: &[u8]) -> Result<Vec<u8>, Refusal> {
    assert!(file.len() <= Limits::FILE, "{what}: {} bytes", file.len());
    let mut cards = vec![0; Limits::CARDS];
    let mut out = vec![0; Limits::EXPANSION];
    let length = timed(what, || {
        expand(file, &mut cards, module, query, 0, &mut out)
    })?;
    out.truncate(length as usize);
    Ok(out)
}

/// A balanced tree of ∧ over so many leaves.
fn tree(leaves: usize, leaf: &dyn Fn(usize) -> Bytes) -> Bytes {
    fn grow(from: usize, to: usize, leaf: &dyn Fn(usize) -> Bytes, into: &mut Bytes) {
        if to - from == 1 {
            into.extend(leaf(from));
            return;
        }
        let middle = (from + to) / 2;
        into.extend([4, 49]);
        grow(from, middle, leaf, into);
        grow(middle, to, leaf, into);
    }
    let mut bytes = Bytes::new();
    grow(0, leaves, leaf, &mut bytes);
    bytes
}

/// A tree of as many leaves as fit into so many bytes.
fn tree_of(bytes: usize, leaf: &dyn Fn(usize) -> Bytes) -> Bytes {
    let (mut leaves, mut left) = (0, bytes);
    while leaf(leaves).len() + 2 <= left {
        left -= leaf(leaves).len() + 2;
        leaves += 1;
    }
    tree(leaves, leaf)
}

fn masked(index: usize, slots: u8) -> Bytes {
    // [] or ENABLED of a set of parameters: two masks that both leave something out.
    let set = index % (1 << slots);
    let parts: Vec<Bytes> = (0..slots).filter(|i| set >> i & 1 == 1).map(p).collect();
    let inner = parts.into_iter().fold(lit(0), and);
    match index >> slots & 1 {
        0 => always(inner),
        _ => always(op(113, &[inner])),
    }
}

#[test]
fn many_instances_of_a_large_body() {
    let plain = |i: usize| p((i % 3) as u8);
    let calls = |_: usize| n(1, &[p(0), p(1), p(2)]);
    let wide = |i: usize| masked(i, 3);
    let leaves: [(&str, &dyn Fn(usize) -> Bytes); 3] =
        [("parameters", &plain), ("calls", &calls), ("masks", &wide)];
    for (what, leaf) in leaves {
        let mut file = [
            module(1),
            constant(1, 3),
            def(2, 3, tree_of(27_000, leaf)),
            end(),
            module(2),
            constant(1, 3),
        ]
        .concat();
        (0..255).for_each(|i| file.extend(instance(100 + i, 0, 1, &[])));
        file.extend(end());
        assert_eq!(checked(&format!("255 instances, {what}"), &file), Ok(256));
    }
}

#[test]
fn chains_of_instances() {
    // Fifteen modules, each bringing the one before, with substitutes that use their names often.
    let mut file = Bytes::new();
    let uses = |_: usize| n(1, &[p(0), p(1), n(2, &[])]);
    file.extend([module(1), constant(1, 3), constant(2, 0)].concat());
    file.extend(def(
        3,
        0,
        tree_of(1500, &|_| n(1, &[n(2, &[]), lit(0), n(2, &[])])),
    ));
    file.extend(end());
    for m in 2..=15 {
        file.extend([module(m), constant(1, 3), constant(2, 0)].concat());
        let substitute = tree_of(1700, &uses);
        file.extend(instance(0, 0, m - 1, &[(1, substitute), (2, n(2, &[]))]));
        file.extend(end());
    }
    file.extend([module(16), variable(5)].concat());
    for i in 0..200 {
        let k = and(p(0), and(p(1), p(2)));
        file.extend(instance(100 + i, 0, 15, &[(1, k), (2, n(5, &[]))]));
    }
    file.extend(end());
    assert_eq!(
        checked("a chain of 15 under 200 instances", &file),
        Ok(15 + 200)
    );
    let query = io(100, 3, &[]);
    let long = expanded("its expansion", &file, 16, &query);
    assert_eq!(long, Err(Cause::TooLong.at(0)));
}

#[test]
fn chains_with_parameters() {
    // Named at the end with three parameters: substitutes of six parameters inside the chain.
    let mut file = Bytes::new();
    file.extend([module(1), constant(1, 3), constant(2, 0)].concat());
    file.extend(def(
        3,
        0,
        tree_of(1200, &|_| n(1, &[n(2, &[]), lit(0), n(2, &[])])),
    ));
    file.extend(end());
    for m in 2..=15 {
        file.extend([module(m), constant(1, 3), constant(2, 0)].concat());
        let substitute = tree_of(1100, &|_| n(1, &[p(0), n(2, &[]), p(2)]));
        let with = [(1, substitute), (2, tree_of(500, &|_| n(2, &[])))];
        file.extend(instance(0, 0, m - 1, &with));
        file.extend(end());
    }
    file.extend([module(16), variable(5), constant(1, 3)].concat());
    let mut count = 15;
    while file.len() < 32_600 && count < 256 {
        file.extend(instance(100 + count, 3, 15, &[(2, p(2))]));
        count += 1;
    }
    file.extend(end());
    let found = checked("a chain of 15 under instances with parameters", &file);
    assert_eq!(found, Ok(count as u32));
}

#[test]
fn towers() {
    let tower = |bottom: Bytes, step: &dyn Fn(u16) -> Bytes| {
        let mut file = [module(1), variable(500), def(1, 1, bottom)].concat();
        (2..=256).for_each(|d| file.extend(def(d, 1, step(d - 1))));
        [file, end()].concat()
    };
    let twice = |d: u16| n(d, &[n(d, &[p(0)])]);
    let both = |d: u16| and(n(d, &[p(0)]), n(d, &[p(0)]));
    let x = || n(500, &[]);
    let file = tower(p(0), &both);
    assert_eq!(checked("a doubling tower", &file), Ok(256));
    let query = n(256, &[x()]);
    let long = Err(Cause::TooLong.at(0));
    assert_eq!(expanded("its expansion", &file, 1, &query), long);
    assert_eq!(
        expanded("a small part", &file, 1, &n(14, &[x()])).map(|e| e.len()),
        Ok(49_150)
    );
    let file = tower(p(0), &twice);
    assert_eq!(checked("an identity tower", &file), Ok(256));
    assert_eq!(expanded("its expansion", &file, 1, &query), Ok(x()));
    let file = tower(lit(7), &twice);
    assert_eq!(expanded("a tower that drops", &file, 1, &query), Ok(lit(7)));
    let file = tower(op(16, &[p(0)]), &twice);
    assert_eq!(expanded("a deep tower", &file, 1, &query), long);
    let deep = expanded("16,384 deep", &file, 1, &n(15, &[x()]));
    assert_eq!(deep, Ok([[4, 16].repeat(16_384), x()].concat()));
    let file = tower(and(p(0), lit(1)), &twice);
    let left = expanded("8,192 deep to the left", &file, 1, &n(14, &[x()])).expect("an expansion");
    assert_eq!(
        left,
        [[4, 49].repeat(8_192), x(), lit(1).repeat(8_192)].concat()
    );
    let file = tower(and(lit(1), p(0)), &twice);
    let right =
        expanded("8,192 deep to the right", &file, 1, &n(14, &[x()])).expect("an expansion");
    assert_eq!(right, [and(lit(1), vec![]).repeat(8_192), x()].concat());
    // Binders: each level binds a variable, and the argument refers to one outside.
    let file = tower(op(128, &[p(0)]), &twice);
    let query = op(132, &[x(), n(15, &[b(0)])]);
    let bound = expanded("16,384 binders", &file, 1, &query).expect("an expansion");
    assert_eq!(
        bound,
        [op(132, &[x()]), [4, 128].repeat(16_384), b(16_384)].concat()
    );
}

#[test]
fn aliases() {
    let mut file = [module(1), variable(500), def(1, 2, and(p(0), p(1)))].concat();
    for d in 2..=200 {
        file.extend(def(d, 2, n(d - 1, &[p(0), p(1)])));
    }
    for d in 201..=212 {
        let below = || match d {
            201 => n(200, &[lit(1), lit(2)]),
            _ => n(d - 1, &[]),
        };
        file.extend(def(d, 0, n(200, &[below(), below()])));
    }
    file.extend(end());
    let found = expanded("aliases under 16,383 tokens", &file, 1, &n(212, &[]));
    assert_eq!(found.map(|e| e.len()), Ok(8_192 * 3 + 8_191 * 2));
    // Aliases wrapped in identities.
    let id = |mut e: Bytes, times: usize| {
        for _ in 0..times {
            e = n(1, &[e]);
        }
        e
    };
    let mut file = [module(1), def(1, 1, p(0)), def(2, 1, op(16, &[p(0)]))].concat();
    let mut d = 2;
    while file.len() < 31_000 && d < 230 {
        d += 1;
        file.extend(def(d, 1, id(n(d - 1, &[id(p(0), 12)]), 14)));
    }
    let base = d;
    while d < base + 14 {
        d += 1;
        file.extend(def(d, 1, n(d - 1, &[n(d - 1, &[p(0)])])));
    }
    file.extend(end());
    let found = expanded("aliases and identities", &file, 1, &n(d, &[lit(5)]));
    assert_eq!(found, Ok([[4, 16].repeat(16_384), lit(5)].concat()));
}

#[test]
fn many_names() {
    let mut file = [module(1), end(), module(2)].concat();
    let mut name = 1;
    while file.len() + 9 + 3 + 14 * (5 + 5 + 3) <= Limits::FILE {
        file.extend(instance(name, 0, 1, &[]));
        name += 1;
    }
    file.extend(end());
    for m in 3..=16 {
        file.extend([module(m), extends(&[m - 1]), end()].concat());
    }
    assert_eq!(checked("3,600 instances through 15 modules", &file), Ok(0));
    let mut file = [module(1), variable(1)].concat();
    file.extend(def(2, 0, tree_of(28_000, &|_| n(1, &[]))));
    assert_eq!(checked("4,600 names", &[file, end()].concat()), Ok(1));
    let mut file = [module(1), def(1, 0, lit(0)), end()].concat();
    for m in 2..=15 {
        file.extend([module(m), extends(&(1..m).collect::<Vec<_>>())].concat());
        file.extend([def(m, 0, n(m - 1, &[])), end()].concat());
    }
    file.extend(
        [
            module(16),
            extends(&(1..=15).cycle().take(15_000).collect::<Vec<_>>()),
        ]
        .concat(),
    );
    file.extend(end());
    assert_eq!(checked("EXTENDS of 15,000 names", &file), Ok(15));
}

#[test]
fn masked_bodies() {
    let body = tree_of(30_000, &|i| masked(i, 3));
    let file = [module(1), def(1, 3, body), end()].concat();
    assert_eq!(checked("a body full of masks", &file[..]), Ok(1));
    let mut file = module(1);
    file.extend(def(1, 3, tree(16, &|i| masked(i, 3))));
    for d in 2..=100 {
        let call = |_: usize| n(d - 1, &[p(0), p(1), p(2)]);
        file.extend(def(d, 3, tree(25, &call)));
    }
    file.extend(end());
    assert_eq!(checked("calls full of masks", &file), Ok(100));
}

#[test]
fn large_queries() {
    let file = [module(1), variable(1), def(2, 2, p(1)), end()].concat();
    let mut cards = vec![0; Limits::CARDS];
    let size = 8 << 20;
    // Too deep, broken at the very end, or lawful and wide.
    let deep = wrap(size / 2, lit(0));
    let reply = timed("a deep query", || level(&file, &mut cards, 1, &deep, &[]));
    assert_eq!(reply, Err(Cause::Limit.at(4)));
    let mut broken = wrap(size / 2, lit(0));
    broken.push(0);
    let reply = timed("a broken query", || {
        level(&file, &mut cards, 1, &broken, &[])
    });
    assert_eq!(reply, Err(Cause::Layout.at(4)));
    let many = [[2, 0, 9, 255].repeat(size / 4), lit(0)].concat();
    let reply = timed("a query of many arguments", || {
        level(&file, &mut cards, 1, &many, &[])
    });
    assert_eq!(reply, Err(Cause::Layout.at(4)));
    let wide = tree_of(size, &|_| n(1, &[]));
    let reply = timed("a wide query", || level(&file, &mut cards, 1, &wide, &[]));
    assert_eq!(reply, Ok(1));
    let mut out = vec![0; 70_000];
    let reply = timed("a wide expansion", || {
        expand(&file, &mut cards, 1, &wide, 0, &mut out)
    });
    assert_eq!(reply, Err(Cause::TooLong.at(0)));
    let dropping = n(2, &[wide, lit(8)]);
    let reply = timed("a wide argument dropped", || {
        expand(&file, &mut cards, 1, &dropping, 0, &mut out)
    });
    assert_eq!(reply, Ok(3));
    assert_eq!(out[..3], lit(8));
}

#[test]
fn lengths_at_the_limit() {
    // Definition d is twice as long as d - 1, and two bytes more.
    let mut file = [module(1), variable(1), def(2, 1, p(0))].concat();
    for d in 3..=15 {
        file.extend(def(d, 1, and(n(d - 1, &[p(0)]), n(d - 1, &[p(0)]))));
    }
    file.extend(end());
    let mut cards = vec![0; Limits::CARDS];
    // 8,192 copies of six bytes and 8,191 operators are 65,534 bytes.
    let full = n(15, &[wrap(1, n(1, &[]))]);
    for (more, length) in [(0, 65_534), (1, 65_536)] {
        let query = wrap(more, full.clone());
        for room in [65_533, 65_534, 65_535, 65_536, 100_000] {
            let mut out = vec![1; room];
            let reply = expand(&file, &mut cards, 1, &query, 0, &mut out);
            if length <= room && length <= 65_535 {
                assert_eq!(reply, Ok(length as u32));
                assert!(out[length..].iter().all(|&byte| byte == 1));
            } else {
                assert_eq!(reply, Err(Cause::TooLong.at(0)));
                assert!(out.iter().all(|&byte| byte == 1));
            }
        }
    }
    // 13,107 tokens of five bytes are exactly 65,535.
    let exact = tree(13_107, &|_| lit(9));
    assert_eq!(exact.len(), 65_533);
    let exact = wrap(1, exact);
    let mut out = vec![1; 65_535];
    assert_eq!(
        expand(&file, &mut cards, 1, &exact, 0, &mut out),
        Ok(65_535)
    );
    assert_eq!(out, exact);
    assert_eq!(
        expand(&file, &mut cards, 1, &exact, 0, &mut out[..65_534]),
        Err(Cause::TooLong.at(0))
    );
}

#[test]
fn sixteen_parameters() {
    // Chain: the inner substitute has eight arguments, the outer instance eight parameters.
    let literals = |from: u16| (from..from + 8).map(lit).collect::<Vec<_>>();
    let mut file = [
        module(1),
        constant(1, 8),
        def(2, 0, n(1, &literals(1))),
        end(),
        module(2),
    ]
    .concat();
    (11..19).for_each(|name| file.extend(constant(name, 0)));
    let leaf = |i: usize| match i {
        0..=7 => p(i as u8),
        _ => n(i as u16 + 3, &[]),
    };
    file.extend(instance(0, 0, 1, &[(1, tree(16, &leaf))]));
    let with: Vec<(u16, Bytes)> = (0..8).map(|i| (11 + i as u16, p(i))).collect();
    file.extend([end(), module(3), instance(9, 8, 2, &with), end()].concat());
    assert_eq!(checked("sixteen parameters", &file), Ok(3));
    let query = io(9, 2, &literals(21));
    let expected = tree(16, &|i| match i {
        0..=7 => lit(i as u16 + 1),
        _ => lit(i as u16 + 13),
    });
    assert_eq!(expanded("their expansion", &file, 3, &query), Ok(expected));
}

#[test]
fn towers_of_eight() {
    // Each calls the last with all its parameters, turned by one.
    let turned: Vec<Bytes> = (0..8).map(|i| p((i + 1) % 8)).collect();
    let all = (1..8).fold(p(0), |e, i| and(e, p(i)));
    let mut file = [module(1), variable(500), def(1, 8, all)].concat();
    (2..=256).for_each(|d| file.extend(def(d, 8, n(d - 1, &turned))));
    let file = [file, end()].concat();
    assert_eq!(checked("256 of eight parameters", &file), Ok(256));
    let last = &cards(&file)[16 * 255..];
    assert_eq!(last, cards(&file)[..16].to_vec());
    assert_eq!(last[11..], [15, 255, 255, 255, 0]);
    let call = n(256, &vec![n(500, &[]); 8]);
    let length = expanded("the last one's expansion", &file, 1, &call).map(|e| e.len());
    assert_eq!(length, Ok(7 * 2 + 8 * 4));
    // Each has the last in an argument of the last.
    let mut file = [module(1), def(1, 8, and(p(3), p(4)))].concat();
    for d in 2..=256 {
        let both = [
            p(0),
            p(1),
            p(2),
            p(3),
            n(d - 1, &[p(0), p(1), p(2), p(3), p(4), p(5), p(6), p(7)]),
        ];
        let arguments: Vec<Bytes> = both.into_iter().chain((5..8).map(p)).collect();
        file.extend(def(d, 8, n(d - 1, &arguments)));
    }
    let file = [file, end()].concat();
    assert_eq!(checked("256 doubling", &file), Ok(256));
    let call = n(256, &vec![lit(0); 8]);
    let long = expanded("the last one's expansion", &file, 1, &call);
    assert_eq!(long, Err(Cause::TooLong.at(0)));
}

#[test]
#[ignore = "takes half a gigabyte of memory"]
fn a_query_of_64_megabytes() {
    let file = [module(1), variable(1), def(2, 2, p(1)), end()].concat();
    let mut cards = vec![0; Limits::CARDS];
    let mut out = vec![0; Limits::EXPANSION];
    let size = 64 << 20;
    let deep = wrap(size / 2, lit(0));
    let reply = timed("64 MB deep", || level(&file, &mut cards, 1, &deep, &[]));
    assert_eq!(reply, Err(Cause::Limit.at(4)));
    drop(deep);
    let wide = tree(size / 4, &|_| p(0));
    let reply = timed("64 MB wide", || level(&file, &mut cards, 1, &wide, &[2]));
    assert_eq!(reply, Ok(2));
    let dropping = n(2, &[wide, lit(8)]);
    let reply = timed("64 MB dropped", || {
        expand(&file, &mut cards, 1, &dropping, 1, &mut out)
    });
    assert_eq!(reply, Ok(3));
}

#[test]
fn deep_substitutes_on_a_small_stack() {
    // Every substitute of the chain is nested as deeply as it may be.
    let deep = |e: Bytes, around: usize| wrap(31 - around, e);
    let mut file = [module(1), constant(1, 1)].concat();
    file.extend(def(2, 0, deep(n(1, &[lit(0)]), 1)));
    file.extend(end());
    for m in 2..=16 {
        file.extend([module(m), constant(1, 1)].concat());
        file.extend(instance(0, 0, m - 1, &[(1, deep(n(1, &[p(0)]), 1))]));
        file.extend(end());
    }
    let asked = std::thread::Builder::new()
        .stack_size(512 << 10)
        .spawn(move || {
            let found = checked("deep substitutes", &file);
            (found, expanded("their expansion", &file, 16, &n(2, &[])))
        })
        .expect("a thread");
    let (found, text) = asked.join().expect("no overflow");
    assert_eq!(found, Ok(16));
    assert_eq!(text, Ok(wrap(30 * 16, n(1, &[lit(0)]))));
}

#[test]
fn an_ordinary_file() {
    // Eight modules of twenty definitions, then three that bring one of them each.
    let mut file = Bytes::new();
    let mut definitions = 0;
    for m in 1..=8u16 {
        let base = 100 * m;
        let name = |i: u16| base + i;
        file.extend([module(m), constant(name(0), 0), constant(name(1), 1)].concat());
        file.extend([variable(name(2)), variable(name(3))].concat());
        let leaf = |d: u16| {
            move |i: usize| match i % 5 {
                0 => n(base, &[]),
                1 => n(base + 1, &[p(0)]),
                2 if d > 4 => n(base + d - 1, &[n(base + 2, &[])]),
                3 => op(53, &[n(base + 3, &[]), lit(i as u16)]),
                _ => n(base + 2, &[]),
            }
        };
        for d in 4..24 {
            file.extend(def(name(d), 1, tree_of(160, &leaf(d))));
        }
        file.extend(theorem(always(n(name(23), &[n(name(2), &[])]))));
        file.extend(end());
        definitions += 20;
    }
    for m in 9..=11u16 {
        let of = m - 8;
        file.extend([module(m), variable(5000)].concat());
        let with = [
            (100 * of, lit(1)),
            (100 * of + 1, and(p(0), lit(2))),
            (100 * of + 2, n(5000, &[])),
            (100 * of + 3, n(5000, &[])),
        ];
        file.extend(instance(0, 0, of, &with));
        file.extend(end());
        definitions += 20;
    }
    println!("{} bytes", file.len());
    assert_eq!(checked("an ordinary file", &file), Ok(definitions));
    assert_eq!(checked("the same again", &file), Ok(definitions));
}
