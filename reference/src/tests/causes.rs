//! Every cause of a file, alone and beside others, and the limits from both sides.

use super::build::*;
use crate::*;

/// Files, each given by its fields, with the refusal expected.
fn expect(cases: Vec<(Vec<Bytes>, u32, u32)>) {
    for (fields, number, place) in cases {
        assert_eq!(
            verdict(&fields.concat()),
            Err((number, place)),
            "{fields:?}"
        );
    }
}

fn accept(cases: Vec<(Vec<Bytes>, u32)>) {
    for (fields, count) in cases {
        assert_eq!(verdict(&fields.concat()), Ok(count), "{fields:?}");
    }
}

/// A level-incorrect formula.
fn wrong() -> Bytes {
    prime(prime(lit(0)))
}

#[test]
fn cause_1_and_2() {
    let file = [module(1), end()].concat();
    for length in [0, 4_095] {
        assert_eq!(
            check(&file, &mut vec![0; length]),
            Err(Cause::CardMemory.at(0))
        );
        assert_eq!(
            check(&[], &mut vec![0; length]),
            Err(Cause::CardMemory.at(0))
        );
    }
    assert_eq!(verdict(&[]), Err((2, 0)));
    assert_eq!(verdict(&[0; 32_769]), Err((2, 0)));
    assert_eq!(verdict(&[0; 32_768]), Err((3, 0)));
    // A lawful file of exactly 32,768 bytes.
    let long = theorem([[4, 48, 4, 0].repeat(30), vec![4, 0]].concat());
    let mut file = module(1);
    while 32_768 - file.len() >= 300 {
        file.extend(&long);
    }
    // Fill up with THEOREMs of 5 and 6 bytes.
    while file.len() < 32_768 - 3 {
        let left = 32_768 - 3 - file.len();
        if !left.is_multiple_of(5) {
            file.extend(theorem(lit(0)));
        } else {
            file.extend(theorem(vec![4, 0]));
        }
    }
    file.extend(end());
    assert_eq!(file.len(), 32_768);
    assert_eq!(verdict(&file), Ok(0));
    file.push(1);
    assert_eq!(verdict(&file), Err((2, 0)));
}

#[test]
fn cause_3() {
    let inside = |field: Bytes| vec![module(1), field];
    let mut cases = vec![
        (vec![vec![1]], 3, 0),
        (vec![vec![1, 0]], 3, 0),
        (vec![vec![1, 0, 2, 0]], 3, 0),
        (vec![vec![1, 255, 255, 0, 1]], 3, 0),
        (vec![raw(1, &[])], 3, 0),
        (vec![raw(1, &[1])], 3, 0),
        (vec![raw(1, &[0, 0])], 3, 0),
        (vec![raw(1, &[0, 1, 0])], 3, 0),
        (vec![module(1), end(), vec![7]], 3, 2),
        // Before cause 4: a broken field outside its order.
        (vec![raw(7, &[0])], 3, 0),
        (vec![raw(4, &[0, 0])], 3, 0),
        (vec![raw(10, &[])], 3, 0),
    ];
    let payloads: Vec<(u8, Vec<u8>)> = vec![
        (0, vec![]),
        (10, vec![]),
        (255, vec![1]),
        (2, vec![]),
        (2, vec![0]),
        (2, vec![0, 1, 0]),
        (2, vec![0, 0]),
        (2, vec![0, 1, 0, 0]),
        (3, vec![0, 1]),
        (3, vec![0, 0, 0]),
        (3, vec![0, 1, 0, 0]),
        (4, vec![0]),
        (4, vec![0, 0]),
        (4, vec![0, 1, 0]),
        (5, vec![]),
        (5, vec![0, 2]),
        (5, vec![0, 2, 0]),
        (5, vec![0, 0, 0, 4, 0]),
        (5, vec![0, 2, 0, 4]),
        (5, vec![0, 2, 0, 4, 104]),
        (5, vec![0, 2, 0, 4, 111]),
        (5, vec![0, 2, 0, 4, 126]),
        (5, vec![0, 2, 0, 4, 127]),
        (5, vec![0, 2, 0, 4, 142]),
        (5, vec![0, 2, 0, 4, 255]),
        (5, vec![0, 2, 0, 6]),
        (5, vec![0, 2, 0, 4, 16]),
        (5, vec![0, 2, 0, 4, 0, 4]),
        (5, vec![0, 2, 0, 0]),
        (5, vec![0, 2, 0, 1, 0]),
        (5, vec![0, 2, 0, 5, 0]),
        (5, vec![0, 2, 0, 2, 0, 0, 0]),
        (5, vec![0, 2, 0, 2, 0, 9]),
        (5, vec![0, 2, 0, 2, 0, 9, 1]),
        (5, vec![0, 2, 0, 2, 0, 9, 200, 4, 0]),
        (5, vec![0, 2, 0, 3, 0, 0, 0, 1, 0]),
        (5, vec![0, 2, 0, 3, 0, 1, 0, 0, 0]),
        (5, vec![0, 2, 0, 3, 0, 1, 0, 1]),
        (6, vec![]),
        (6, vec![0, 0, 0, 0, 1]),
        (6, vec![0, 0, 0, 0, 0, 0]),
        (6, vec![0, 0, 1, 0, 1, 0]),
        (6, vec![0, 0, 0, 0, 1, 0, 0]),
        (6, vec![0, 0, 0, 0, 1, 1]),
        (6, vec![0, 0, 0, 0, 1, 1, 0, 5, 0, 0]),
        (6, vec![0, 0, 0, 0, 1, 1, 0, 0, 0, 2, 4, 0]),
        (6, vec![0, 0, 0, 0, 1, 1, 0, 5, 0, 3, 4, 0]),
        (6, vec![0, 0, 0, 0, 1, 1, 0, 5, 0, 3, 4, 0, 0]),
        (6, vec![0, 0, 0, 0, 1, 1, 0, 5, 0, 2, 4, 0, 0]),
        (7, vec![0]),
        (8, vec![]),
        (8, vec![4, 0, 4, 0]),
        (9, vec![]),
        (9, vec![4, 112]),
    ];
    for (tag, payload) in payloads {
        cases.push((inside(raw(tag, &payload)), 3, 1));
    }
    // A broken layout deep inside, behind a limit passed.
    cases.push((
        inside(theorem([[4u8, 16].repeat(5000), vec![4]].concat())),
        3,
        1,
    ));
    expect(cases);
}

#[test]
fn cause_4() {
    let mut cases = vec![
        (vec![module(1), module(2)], 4, 1),
        (vec![module(1), module(1)], 4, 1),
        (vec![module(1)], 4, 1),
        (vec![module(1), variable(2)], 4, 2),
        (vec![module(1), end(), module(2)], 4, 3),
        (
            vec![module(1), end(), module(2), variable(1), extends(&[1])],
            4,
            4,
        ),
        (
            vec![module(1), end(), module(2), extends(&[1]), extends(&[1])],
            4,
            4,
        ),
        (vec![module(1), end(), end()], 4, 2),
        // Before every other cause but 3.
        (vec![module(1), end(), def(1, 9, p(7))], 4, 2),
        (vec![theorem(wrap(40, lit(0)))], 4, 0),
    ];
    for field in [
        extends(&[1]),
        constant(1, 0),
        variable(1),
        def(1, 0, lit(0)),
        instance(0, 0, 1, &[]),
        end(),
        assume(lit(0)),
        theorem(lit(0)),
    ] {
        cases.push((vec![field], 4, 0));
    }
    expect(cases);
}

#[test]
fn cause_5() {
    let modules = |count: u16| {
        (1..=count)
            .flat_map(|m| [module(m), end()])
            .collect::<Vec<_>>()
    };
    let declarations = |count: u16| {
        let mut fields = vec![module(1)];
        fields.extend((0..count).map(|d| match d % 2 {
            0 => variable(d + 1),
            _ => constant(d + 1, 8),
        }));
        fields.push(end());
        fields
    };
    accept(vec![
        (modules(16), 0),
        (declarations(64), 0),
        (
            vec![module(1), def(1, 8, op(96, &[p(0), p(1), p(7)])), end()],
            1,
        ),
        (
            vec![
                module(1),
                constant(1, 8),
                theorem(n(1, &vec![lit(0); 8])),
                end(),
            ],
            0,
        ),
    ]);
    let bringing = |own: u16, more: u16| {
        let mut fields = vec![module(1)];
        fields.extend((1..=own).map(|d| def(d, 0, lit(0))));
        fields.extend([end(), module(2)]);
        fields.extend((1..=more).map(|d| def(1000 + d, 0, lit(0))));
        fields.extend([instance(9, 0, 1, &[]), end()]);
        fields
    };
    accept(vec![(bringing(128, 0), 256), (bringing(100, 56), 256)]);
    let k = |count| vec![module(1), constant(5, count), end(), module(2)];
    let with = |count, field| [k(count), vec![field]].concat();
    let d = |count| vec![module(1), def(5, count, lit(0)), end(), module(2)];
    accept(vec![
        (
            [with(5, instance(9, 3, 1, &[(5, lit(0))])), vec![end()]].concat(),
            0,
        ),
        ([d(5), vec![instance(9, 3, 1, &[]), end()]].concat(), 2),
        ([d(0), vec![instance(9, 8, 1, &[]), end()]].concat(), 2),
        // A name that stands for itself is not limited so.
        (
            [k(8), vec![constant(5, 8), instance(9, 8, 1, &[]), end()]].concat(),
            0,
        ),
    ]);
    expect(vec![
        (modules(17), 5, 32),
        (declarations(65), 5, 65),
        (vec![module(1), constant(1, 9)], 5, 1),
        (vec![module(1), def(1, 9, lit(0))], 5, 1),
        (vec![module(1), def(1, 0, n(9, &vec![lit(0); 9]))], 5, 1),
        (vec![module(1), theorem(io(9, 9, &vec![lit(0); 255]))], 5, 1),
        (
            vec![module(1), assume(n(9, &[n(9, &vec![lit(0); 9])]))],
            5,
            1,
        ),
        (vec![module(1), assume(wrap(32, lit(0)))], 5, 1),
        (vec![module(1), instance(3, 9, 9, &[])], 5, 1),
        (
            vec![module(1), instance(3, 0, 9, &[(8, wrap(32, lit(0)))])],
            5,
            1,
        ),
        (with(4, instance(9, 5, 1, &[(5, lit(0))])), 5, 4),
        (with(8, instance(9, 1, 1, &[(5, lit(0))])), 5, 4),
        (with(1, instance(9, 8, 1, &[(5, lit(0))])), 5, 4),
        ([d(4), vec![instance(9, 5, 1, &[])]].concat(), 5, 4),
        ([d(1), vec![instance(9, 8, 1, &[])]].concat(), 5, 4),
        (bringing(129, 0), 5, 132),
        (bringing(100, 57), 5, 160),
        // Before 6 to 16.
        (modules(16).into_iter().chain([module(16)]).collect(), 5, 32),
        (vec![module(1), variable(1), constant(1, 9)], 5, 2),
    ]);
    // For a module not ended k is 0, and for a name not declared there as well.
    expect(vec![
        (vec![module(1), instance(3, 8, 9, &[(8, lit(0))])], 7, 1),
        (
            with(3, instance(9, 6, 1, &[(6, lit(0)), (5, lit(0))])),
            5,
            4,
        ),
        (
            with(0, instance(9, 8, 1, &[(6, lit(0)), (5, lit(0))])),
            11,
            4,
        ),
    ]);
}

#[test]
fn cause_6_and_7() {
    expect(vec![
        (vec![module(1), end(), module(1)], 6, 2),
        (vec![module(1), end(), module(2), end(), module(1)], 6, 4),
        (vec![module(1), extends(&[1])], 7, 1),
        (vec![module(1), extends(&[2])], 7, 1),
        (vec![module(1), end(), module(2), extends(&[1, 3])], 7, 3),
        (vec![module(1), instance(0, 0, 1, &[])], 7, 1),
        (
            vec![module(1), variable(3), instance(3, 0, 2, &[(5, p(9))])],
            7,
            2,
        ),
    ]);
    accept(vec![(
        vec![module(1), variable(1), end(), module(2), variable(1), end()],
        0,
    )]);
}

#[test]
fn cause_8() {
    let base = |field: Bytes| {
        vec![
            module(1),
            constant(1, 0),
            def(2, 0, lit(0)),
            end(),
            module(2),
            extends(&[1]),
            instance(3, 0, 1, &[]),
            field,
        ]
    };
    let mut cases = Vec::new();
    for name in 1..=3 {
        cases.push((base(constant(name, 0)), 8, 7));
        cases.push((base(variable(name)), 8, 7));
        // Before 9.
        cases.push((base(def(name, 0, n(77, &[]))), 8, 7));
        cases.push((base(instance(name, 0, 1, &[(99, p(0))])), 8, 7));
    }
    cases.push((base(instance(0, 0, 1, &[])), 8, 7));
    // Two declarations of one name meet; so do two instances of one module, and two definitions.
    let two = |a: Bytes, b: Bytes| {
        vec![
            module(9),
            def(8, 0, lit(0)),
            end(),
            module(1),
            a,
            end(),
            module(2),
            b,
            end(),
            module(3),
            extends(&[1, 2]),
        ]
    };
    cases.push((two(variable(1), variable(1)), 8, 10));
    cases.push((two(constant(1, 0), def(1, 0, lit(0))), 8, 10));
    cases.push((two(instance(1, 0, 9, &[]), instance(1, 0, 9, &[])), 8, 10));
    cases.push((two(instance(0, 0, 9, &[]), instance(0, 0, 9, &[])), 8, 10));
    expect(cases);
    let mut same = two(extends(&[9]), extends(&[9]));
    same.push(end());
    let mut own = two(extends(&[9]), instance(5, 0, 9, &[]));
    own.push(end());
    accept(vec![(same, 1), (own, 2)]);
    // A module name is in another name space.
    accept(vec![(
        vec![module(1), end(), module(2), variable(1), variable(2), end()],
        0,
    )]);
}

#[test]
fn cause_9_and_10() {
    let base = |field: Bytes| {
        vec![
            module(1),
            constant(1, 2),
            def(2, 1, lit(0)),
            end(),
            module(2),
            constant(1, 2),
            instance(3, 1, 1, &[]),
            def(4, 0, lit(0)),
            field,
        ]
    };
    let good = io(3, 2, &[lit(0), lit(0)]);
    accept(vec![([base(theorem(good)), vec![end()]].concat(), 3)]);
    let few = || n(1, &[lit(0)]);
    let mut cases = Vec::new();
    for unknown in [
        n(2, &[lit(0)]),
        n(3, &[lit(0)]),
        n(5, &[]),
        io(4, 2, &[]),
        io(3, 1, &[lit(0), lit(0)]),
        io(3, 4, &[]),
        io(2, 3, &[]),
        b(0),
        p(0),
        op(128, &[b(1)]),
        op(132, &[b(0), b(0)]),
        op(140, &[op(137, &[b(1), b(1)])]),
        and(few(), n(5, &[])),
    ] {
        cases.push((base(theorem(unknown.clone())), 9, 8));
        cases.push((base(assume(unknown.clone())), 9, 8));
        cases.push((base(def(7, 0, n(4, &[unknown]))), 9, 8));
    }
    cases.push((base(def(7, 1, p(1))), 9, 8));
    cases.push((base(def(7, 0, n(7, &[]))), 9, 8));
    for wrong in [
        few(),
        n(4, &[lit(0)]),
        io(3, 2, &[lit(0)]),
        io(3, 2, &[]),
        n(1, &vec![lit(0); 3]),
        n(4, &[prime(prime(lit(0)))]),
    ] {
        cases.push((base(theorem(wrong.clone())), 10, 8));
        cases.push((base(def(7, 0, wrong)), 10, 8));
    }
    expect(cases);
    // Names that stand for themselves, and substitutes.
    let inner = || vec![module(1), constant(1, 1), variable(2), end(), module(2)];
    let then = |fields: Vec<Bytes>| [inner(), fields].concat();
    expect(vec![
        (then(vec![instance(0, 0, 1, &[])]), 9, 5),
        (then(vec![variable(2), instance(0, 0, 1, &[])]), 9, 6),
        (
            then(vec![variable(2), variable(1), instance(0, 0, 1, &[])]),
            10,
            7,
        ),
        (then(vec![variable(1), instance(0, 0, 1, &[])]), 9, 6),
        (
            then(vec![variable(2), instance(0, 0, 1, &[(1, p(1))])]),
            9,
            6,
        ),
        (
            then(vec![variable(2), instance(3, 1, 1, &[(1, p(2))])]),
            9,
            6,
        ),
        (
            then(vec![variable(2), instance(3, 1, 1, &[(1, n(3, &[]))])]),
            9,
            6,
        ),
        (
            then(vec![variable(2), instance(0, 0, 1, &[(1, n(2, &[p(0)]))])]),
            10,
            6,
        ),
        // Before 11, over all substitutes.
        (
            then(vec![
                variable(2),
                instance(0, 0, 1, &[(7, lit(0)), (1, p(1))]),
            ]),
            9,
            6,
        ),
        (
            then(vec![
                variable(2),
                instance(0, 0, 1, &[(7, p(0)), (1, p(0))]),
            ]),
            9,
            6,
        ),
        (
            then(vec![
                variable(1),
                instance(0, 0, 1, &[(2, lit(0)), (7, lit(0))]),
            ]),
            10,
            6,
        ),
        (
            then(vec![instance(0, 0, 1, &[(1, lit(0)), (1, lit(0))])]),
            9,
            5,
        ),
    ]);
    accept(vec![
        (
            then(vec![
                variable(2),
                def(1, 1, p(0)),
                instance(0, 0, 1, &[]),
                end(),
            ]),
            1,
        ),
        (
            then(vec![variable(2), instance(3, 1, 1, &[(1, p(1))]), end()]),
            0,
        ),
    ]);
    // An instance name does not stand for a declared name.
    let named = vec![
        module(5),
        end(),
        module(1),
        constant(1, 0),
        end(),
        module(2),
        instance(1, 0, 5, &[]),
        instance(0, 0, 1, &[]),
    ];
    expect(vec![(named, 9, 7)]);
}

#[test]
fn cause_11() {
    let inner = || {
        vec![
            module(1),
            constant(1, 0),
            def(2, 0, lit(0)),
            end(),
            module(2),
        ]
    };
    let then = |field: Bytes| [inner(), vec![field]].concat();
    expect(vec![
        (then(instance(0, 0, 1, &[(1, lit(0)), (1, lit(0))])), 11, 5),
        (then(instance(0, 0, 1, &[(1, lit(0)), (3, lit(0))])), 11, 5),
        (then(instance(0, 0, 1, &[(1, lit(0)), (2, lit(0))])), 11, 5),
        // Before 12.
        (
            then(instance(0, 0, 1, &[(1, wrong()), (3, wrong())])),
            11,
            5,
        ),
        (then(instance(0, 0, 1, &[(1, wrong())])), 12, 5),
    ]);
}

#[test]
fn cause_12_and_13() {
    let inside = |field: Bytes| vec![module(1), variable(1), def(2, 1, lit(0)), field];
    let x = || n(1, &[]);
    expect(vec![
        (inside(def(3, 0, wrong())), 12, 3),
        (inside(def(3, 1, prime(prime(p(0))))), 12, 3),
        (inside(theorem(wrong())), 12, 3),
        (inside(assume(wrong())), 12, 3),
        (inside(assume(always(prime(x())))), 12, 3),
        (inside(def(3, 0, and(prime(x()), always(x())))), 12, 3),
        (
            inside(theorem(and(op(120, &[prime(x()), x()]), prime(x())))),
            12,
            3,
        ),
        (inside(assume(and(prime(lit(0)), always(lit(0))))), 12, 3),
        (inside(assume(x())), 13, 3),
        (inside(assume(prime(lit(0)))), 13, 3),
        (inside(assume(always(lit(0)))), 13, 3),
    ]);
    accept(vec![
        ([inside(def(3, 1, prime(p(0)))), vec![end()]].concat(), 2),
        ([inside(assume(n(2, &[wrong()]))), vec![end()]].concat(), 1),
        ([inside(theorem(always(x()))), vec![end()]].concat(), 1),
    ]);
}

#[test]
fn cause_14() {
    let x = || n(50, &[]);
    // The module's own parts, the substitution, and the verdict on it.
    let case = |parts: Vec<Bytes>, with: Vec<(u16, Bytes)>| {
        let at = parts.len() as u32 + 4;
        let fields = [
            vec![module(1)],
            parts,
            vec![
                end(),
                module(2),
                variable(50),
                instance(9, 1, 1, &with),
                end(),
            ],
        ]
        .concat();
        (fields, at)
    };
    let refused = |parts: Vec<Bytes>, with: Vec<(u16, Bytes)>| {
        let (fields, at) = case(parts, with);
        expect(vec![(fields, 14, at)]);
    };
    let lawful = |parts: Vec<Bytes>, with: Vec<(u16, Bytes)>, count: u32| {
        accept(vec![(case(parts, with).0, count)]);
    };
    let c = || constant(10, 0);
    let k = || constant(10, 1);
    let v = || variable(11);
    lawful(vec![c()], vec![(10, x())], 0);
    lawful(vec![c()], vec![(10, prime(x()))], 0);
    lawful(vec![c()], vec![(10, always(x()))], 0);
    lawful(vec![c(), def(12, 1, p(0))], vec![(10, always(x()))], 2);
    refused(vec![c(), def(12, 0, prime(lit(0)))], vec![(10, x())]);
    lawful(vec![c(), def(12, 0, prime(lit(0)))], vec![(10, p(0))], 2);
    refused(vec![c(), v()], vec![(10, x()), (11, x())]);
    lawful(vec![c(), v()], vec![(10, lit(0)), (11, x())], 0);
    lawful(vec![v()], vec![(11, lit(0))], 0);
    refused(vec![v()], vec![(11, prime(lit(0)))]);
    refused(vec![v()], vec![(11, always(x()))]);
    refused(vec![k()], vec![(10, x())]);
    refused(vec![k()], vec![(10, and(p(1), x()))]);
    refused(vec![k()], vec![(10, prime(p(1)))]);
    lawful(vec![k()], vec![(10, and(p(1), p(0)))], 0);
    // A module that is not constant only by what it extends, or brings.
    for parts in [[extends(&[3]), c()], [c(), instance(0, 0, 3, &[])]] {
        let fields = [
            vec![module(3), def(12, 0, prime(lit(0))), end(), module(1)],
            parts.to_vec(),
            vec![end(), module(2), variable(50)],
            vec![instance(9, 1, 1, &[(10, x())]), end()],
        ];
        expect(vec![(fields.concat(), 14, 9)]);
    }
    // A later 4 is cause 12 all the same.
    let (fields, at) = case(vec![c(), v()], vec![(10, x()), (11, wrong())]);
    expect(vec![(fields, 12, at)]);
    // Names that stand for themselves.
    let standing = |kind: Bytes, own: Bytes| {
        vec![
            module(1),
            kind,
            variable(7),
            end(),
            module(2),
            variable(7),
            own,
            instance(9, 0, 1, &[]),
        ]
    };
    expect(vec![
        (standing(constant(10, 0), variable(10)), 14, 7),
        (standing(variable(10), def(10, 0, prime(lit(0)))), 14, 7),
        (
            standing(constant(10, 1), def(10, 1, op(113, &[p(0)]))),
            14,
            7,
        ),
    ]);
    accept(vec![
        (
            [standing(variable(10), constant(10, 0)), vec![end()]].concat(),
            0,
        ),
        (
            [standing(constant(10, 1), def(10, 1, p(0))), vec![end()]].concat(),
            1,
        ),
    ]);
}

/// A module of two constants and an operator, and one that brings it under the fields given.
fn bringing(inside: Vec<Bytes>, outside: Vec<Bytes>, with: &[(u16, Bytes)]) -> (Vec<Bytes>, u32) {
    let mut fields = vec![module(1), constant(10, 0), constant(11, 0), constant(12, 2)];
    fields.extend(inside);
    fields.extend([end(), module(2), variable(50)]);
    fields.extend(outside);
    fields.push(instance(9, 1, 1, with));
    let at = fields.len() as u32 - 1;
    fields.push(end());
    (fields, at)
}

#[test]
fn cause_21() {
    let x = || n(50, &[]);
    let (action, temporal) = (|| prime(x()), || always(x()));
    let k = || (12, and(p(1), p(2)));
    let refused = |number: u32, inside: Vec<Bytes>, outside: Vec<Bytes>, with: &[(u16, Bytes)]| {
        let (fields, at) = bringing(inside, outside, with);
        expect(vec![(fields, number, at)]);
    };
    let lawful = |inside: Vec<Bytes>, outside: Vec<Bytes>, with: &[(u16, Bytes)], count: u32| {
        accept(vec![(bringing(inside, outside, with).0, count)]);
    };
    let none = Vec::new;
    // Alone: both written, and in either order.
    refused(21, none(), none(), &[(10, action()), (11, temporal()), k()]);
    refused(21, none(), none(), &[k(), (11, temporal()), (10, action())]);
    refused(21, none(), none(), &[(10, temporal()), (11, action()), k()]);
    lawful(none(), none(), &[(10, action()), (11, action()), k()], 0);
    lawful(
        none(),
        none(),
        &[(10, temporal()), (11, temporal()), k()],
        0,
    );
    lawful(none(), none(), &[(10, action()), (11, x()), k()], 0);
    lawful(none(), none(), &[(10, temporal()), (11, p(0)), k()], 0);
    // By names that stand for themselves: both, and one of each.
    let own = |a: Bytes, b: Bytes| vec![def(10, 0, a), def(11, 0, b)];
    refused(21, none(), own(action(), temporal()), &[k()]);
    refused(21, none(), own(temporal(), action()), &[k()]);
    refused(
        21,
        none(),
        vec![def(10, 0, action())],
        &[(11, temporal()), k()],
    );
    refused(
        21,
        none(),
        vec![def(11, 0, temporal())],
        &[(10, action()), k()],
    );
    lawful(none(), own(action(), action()), &[k()], 2);
    lawful(none(), vec![variable(10), def(11, 0, action())], &[k()], 1);
    lawful(
        none(),
        vec![variable(10), def(11, 0, temporal())],
        &[k()],
        1,
    );
    // Of names used or not: no definition uses both, or none any.
    let both = [(10, action()), (11, temporal()), k()];
    refused(21, vec![def(20, 0, n(10, &[]))], none(), &both);
    refused(21, vec![def(20, 1, n(12, &[p(0), lit(0)]))], none(), &both);
    refused(
        21,
        vec![def(20, 0, and(n(10, &[]), n(11, &[])))],
        none(),
        &both,
    );
    // Parameters count as 0: neither theirs nor an operator's arguments mix.
    lawful(none(), none(), &[(10, prime(p(0))), (11, p(0)), k()], 0);
    refused(
        21,
        none(),
        none(),
        &[(10, prime(p(0))), (11, always(p(0))), k()],
    );
    lawful(
        none(),
        none(),
        &[(10, p(0)), (11, temporal()), (12, and(p(0), p(1)))],
        0,
    );
    // Not of a module that is not constant: cause 14 has been before.
    refused(14, vec![variable(50)], none(), &both);
    refused(14, vec![def(20, 0, prime(lit(0)))], none(), &both);
    refused(14, vec![def(20, 0, always(lit(0)))], none(), &both);
    let zero = [(10, lit(0)), (11, p(0)), k()];
    lawful(vec![variable(50)], none(), &zero, 0);
    refused(14, vec![def(20, 1, prime(p(0)))], none(), &both);
    // Both in one substitute are cause 12.
    refused(
        12,
        none(),
        none(),
        &[(10, and(action(), temporal())), (11, lit(0)), k()],
    );
}

#[test]
fn cause_21_of_each_instance_by_itself() {
    let x = || n(50, &[]);
    let both = |name: u16, of: Bytes| instance(name, 0, 1, &[(10, of.clone()), (11, of)]);
    let file = |first: Bytes, second: Bytes| {
        vec![
            module(1),
            constant(10, 0),
            constant(11, 0),
            def(20, 0, and(n(10, &[]), n(11, &[]))),
            end(),
            module(2),
            variable(50),
            first,
            second,
            end(),
        ]
    };
    // What one INSTANCE puts in does not meet what another one does.
    let (actions, formulas) = (
        |name: u16| both(name, prime(x())),
        |name: u16| both(name, always(x())),
    );
    accept(vec![
        (file(actions(8), formulas(9)), 3),
        (file(formulas(8), actions(9)), 3),
        (file(actions(0), formulas(9)), 3),
    ]);
    let mixed = instance(9, 0, 1, &[(10, prime(x())), (11, always(x()))]);
    expect(vec![(file(actions(8), mixed), 21, 8)]);
}

#[test]
fn cause_21_in_its_order() {
    let x = || n(50, &[]);
    let both = |k: Bytes| vec![(10, prime(x())), (11, always(x())), (12, k)];
    let lawful = || and(p(1), p(2));
    // After 14 and all that is before it, whatever the order of the substitutes.
    for (number, k) in [
        (14, x()),
        (14, and(p(1), always(lit(0)))),
        (12, wrong()),
        (21, lawful()),
    ] {
        let (fields, at) = bringing(Vec::new(), Vec::new(), &both(k.clone()));
        expect(vec![(fields, number, at)]);
        let mut turned = both(k);
        turned.reverse();
        let (fields, at) = bringing(Vec::new(), Vec::new(), &turned);
        expect(vec![(fields, number, at)]);
    }
    let with = |more: (u16, Bytes)| [both(lawful()), vec![more]].concat();
    for (number, more) in [
        (5, (10, wrap(32, lit(0)))),
        (9, (10, n(77, &[]))),
        (10, (10, n(50, &[lit(0)]))),
        (11, (10, lit(0))),
        (11, (77, lit(0))),
    ] {
        let (fields, at) = bringing(Vec::new(), Vec::new(), &with(more));
        expect(vec![(fields, number, at)]);
    }
    let (fields, at) = bringing(Vec::new(), vec![constant(9, 0)], &both(lawful()));
    expect(vec![(fields, 8, at)]);
    // Before 16: the constant module has a named instance.
    let named = |with: &[(u16, Bytes)]| {
        let (fields, at) = bringing(vec![instance(30, 0, 3, &[])], Vec::new(), with);
        let fields = [vec![module(3), end()], fields].concat();
        (fields, at + 2)
    };
    let (fields, at) = named(&both(lawful()));
    expect(vec![(fields, 21, at)]);
    let (fields, at) = named(&[(10, prime(x())), (11, x()), (12, lawful())]);
    expect(vec![(fields, 16, at)]);
    // A field at fault before it counts first.
    let (fields, at) = bringing(Vec::new(), vec![theorem(wrong())], &both(lawful()));
    expect(vec![(fields, 12, at - 1)]);
}

#[test]
fn cause_21_of_extended_names() {
    // Declared in a module that the constant one extends, and standing for what is extended here.
    let inner = |declared: Bytes| {
        vec![
            module(1),
            constant(10, 0),
            declared,
            end(),
            module(2),
            extends(&[1]),
            end(),
        ]
    };
    let outer = |first: Bytes| {
        vec![
            module(3),
            def(11, 0, always(lit(0))),
            end(),
            module(4),
            extends(&[3]),
            first,
            instance(0, 0, 2, &[]),
            end(),
        ]
    };
    let file = |declared: Bytes, first: Bytes| [inner(declared), outer(first)].concat();
    let action = || def(10, 0, prime(lit(0)));
    expect(vec![(file(constant(11, 0), action()), 21, 13)]);
    accept(vec![(file(constant(11, 0), constant(10, 0)), 1)]);
    accept(vec![(file(constant(11, 0), def(10, 0, always(lit(1)))), 2)]);
    // A variable there, and it is not constant.
    expect(vec![(file(variable(11), action()), 14, 13)]);
}

#[test]
fn cause_16() {
    // A 2 beside a 3 below an operator is 4 where it is written, so no instance brings it.
    let body = |first: Bytes| always(n(1, &[first, prime(n(2, &[]))]));
    let inner = |d: Bytes| vec![module(1), constant(1, 2), variable(2), def(3, 0, d), end()];
    expect(vec![
        (inner(body(lit(0))), 12, 3),
        (inner(body(always(lit(0)))), 12, 3),
    ]);
    // What stays lawful where it is written stays lawful where it is brought.
    let inner = inner(always(n(
        1,
        &[always(lit(0)), op(113, &[prime(n(2, &[]))])],
    )));
    let bring = |substitute: Bytes| instance(0, 0, 1, &[(1, substitute)]);
    let outer = |field: Bytes| [inner.clone(), vec![module(2), variable(2), field, end()]].concat();
    for substitute in [p(0), p(1), and(p(0), p(1)), lit(0)] {
        accept(vec![(outer(bring(substitute)), 2)]);
    }
    // Instances inside instances.
    let chain = |inside: Bytes, name: u16, with: &[(u16, Bytes)]| {
        let last = vec![module(3), variable(2), instance(name, 0, 2, with), end()];
        let middle = vec![module(2), constant(1, 2), variable(2), inside, end()];
        [inner.clone(), middle, last].concat()
    };
    let same = || instance(0, 0, 1, &[]);
    let named = || instance(8, 0, 1, &[]);
    accept(vec![
        (chain(same(), 0, &[(1, p(0))]), 3),
        (chain(same(), 7, &[(1, p(1))]), 3),
    ]);
    expect(vec![
        (chain(named(), 0, &[(1, p(0))]), 16, 12),
        (chain(named(), 7, &[(1, p(1))]), 16, 12),
    ]);
    // A named instance that brings nothing, and one that is extended.
    expect(vec![
        (
            vec![
                module(1),
                end(),
                module(2),
                instance(5, 0, 1, &[]),
                end(),
                module(3),
                instance(0, 0, 2, &[]),
            ],
            16,
            6,
        ),
        (
            vec![
                module(1),
                end(),
                module(2),
                instance(5, 0, 1, &[]),
                end(),
                module(3),
                extends(&[2]),
                end(),
                module(4),
                instance(0, 0, 3, &[]),
            ],
            16,
            9,
        ),
    ]);
}

#[test]
fn cause_17_and_18() {
    let file = [module(1), def(2, 1, and(p(0), p(0))), end()].concat();
    let mut cards = vec![0; 4_096];
    let mut out = vec![5; 70_000];
    let none = Err(Cause::NoSuch.at(0));
    assert_eq!(level(&file, &mut cards, 2, &lit(0), &[]), none);
    assert_eq!(expand(&file, &mut cards, 0, &lit(0), 0, &mut out), none);
    assert_eq!(alike(&file, &mut cards, 0, 1), none);
    assert_eq!(body(&file, &mut cards, 1), Err(Cause::NoSuch.at(0)));
    let long = Err(Cause::TooLong.at(0));
    let query = n(2, &[lit(0)]);
    assert_eq!(expand(&file, &mut cards, 1, &query, 0, &mut out[..7]), long);
    assert_eq!(expand(&file, &mut cards, 1, &query, 0, &mut []), long);
    assert!(out.iter().all(|&byte| byte == 5));
    assert_eq!(
        expand(&file, &mut cards, 1, &query, 0, &mut out[..8]),
        Ok(8)
    );
}

#[test]
fn two_faults() {
    // In one field the lower number counts, in two fields the first.
    expect(vec![
        (vec![module(1), def(1, 9, vec![9])], 3, 1),
        (vec![module(1), def(1, 9, n(9, &[]))], 5, 1),
        (vec![module(1), variable(1), def(1, 0, wrong())], 8, 2),
        (vec![module(1), def(1, 0, prime(prime(n(9, &[]))))], 9, 1),
        (
            vec![
                module(1),
                variable(1),
                def(2, 0, prime(prime(n(1, &[lit(0)])))),
            ],
            10,
            2,
        ),
        (vec![module(1), assume(wrong()), def(1, 9, vec![])], 12, 1),
        (vec![module(1), assume(prime(lit(0))), vec![77]], 13, 1),
        (vec![module(1), variable(2), variable(2), module(1)], 8, 2),
        (vec![module(1), end(), module(2), module(1)], 4, 3),
        (vec![module(1), end(), module(1), extends(&[7])], 6, 2),
    ]);
}
