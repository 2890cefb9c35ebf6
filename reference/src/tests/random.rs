//! Generated files: the cards against a direct evaluation of the rules and against the long way,
//! level queries and expansions against the long way, and damaged files.

use super::build::*;
use super::gen::{self, Random, Vocabulary};
use crate::context::{Substitute, Tables};
use crate::exact_cards::vectors;
use crate::expressions::{Node, Operator};
use crate::judge::Program;
use crate::levels::declared_level;
use crate::long_way::LongWay;
use crate::{check, expand, level, rows, staying_lawful, staying_lawful_by};
use crate::{Cause, Limits, Refusal, Rules, Seen};

const FUEL: usize = 3_000;

/// Levels by the rules alone: cards of definitions numbered before, at one choice of levels, with
/// every declared name of an instanced module replaced as its text is read.
struct Book<'p> {
    program: &'p Program,
}

impl Book<'_> {
    fn tables(&self) -> &Tables {
        &self.program.tables
    }

    /// The level of a definition, its parameters at these levels.
    fn definition(&self, number: usize, levels: &[u8]) -> u8 {
        // The instances that brought it, the innermost first, down to the original.
        let mut chain = Vec::new();
        let mut number = number;
        while let Some((instance, source)) = self.tables().definitions[number].brought {
            chain.insert(0, instance);
            number = source as usize;
        }
        let text = self.tables().definitions[number].text;
        self.text(&mut (text as usize), &chain, levels, &mut Vec::new())
    }

    fn parameters(&self, chain: &[u16]) -> usize {
        let own = |&instance: &u16| self.tables().instances[instance as usize].parameters as usize;
        chain.iter().map(own).sum()
    }

    fn text(&self, at: &mut usize, chain: &[u16], levels: &[u8], binders: &mut Vec<u8>) -> u8 {
        let node = self.program.texts.nodes[*at];
        *at += 1;
        let (operator, count) = match node {
            Node::Parameter(index) => return levels[self.parameters(chain) + index as usize],
            Node::Bound(index) => return binders[binders.len() - 1 - index as usize],
            Node::Literal(_) => return 0,
            Node::BuiltIn(code) => {
                let row = rows::known(code);
                let mut arguments = Vec::new();
                for index in 0..row.arguments as usize {
                    let binds = row.binds_in(index);
                    binders.extend(binds);
                    arguments.push(self.text(at, chain, levels, binders));
                    if binds.is_some() {
                        binders.pop();
                    }
                }
                return row.level(&arguments);
            }
            Node::Declared { id, count } => (Operator::Declared(id), count),
            Node::Defined { number, count } => (Operator::Defined(number), count),
        };
        let arguments: Vec<u8> = (0..count)
            .map(|_| self.text(at, chain, levels, binders))
            .collect();
        self.apply(operator, chain, levels, &arguments)
    }

    fn apply(&self, operator: Operator, chain: &[u16], levels: &[u8], arguments: &[u8]) -> u8 {
        let before = &levels[..self.parameters(chain)];
        match operator {
            Operator::Defined(number) => {
                // What each instance in turn made of it.
                let mut number = number;
                for &instance in chain {
                    let made = self.tables().definitions.iter();
                    let mut made = made.map(|d| d.brought);
                    let found = made.position(|from| from == Some((instance, number)));
                    number = found.expect("brought with the rest") as u8;
                }
                let levels = [before, arguments].concat();
                self.program.cards[number as usize].at(&levels)
            }
            Operator::Declared(id) => {
                let Some((&instance, outer)) = chain.split_first() else {
                    let declaration = &self.tables().declarations[id as usize];
                    return declared_level(declaration, arguments);
                };
                let instance = &self.tables().instances[instance as usize];
                match instance.substitutes[id as usize].expect("a substitute") {
                    Substitute::Written(text) => {
                        let levels = [before, arguments].concat();
                        self.text(&mut (text as usize), outer, &levels, &mut Vec::new())
                    }
                    Substitute::Same(operator) => self.apply(operator, outer, levels, arguments),
                }
            }
        }
    }
}

/// Any levels for so many parameters.
fn any_levels(random: &mut Random, count: usize) -> Vec<u8> {
    (0..count).map(|_| random.below(5) as u8).collect()
}

#[derive(Debug, Default)]
struct Tally {
    definitions: usize,
    brought: usize,
    chained: usize,
    /// Of more than three parameters.
    wide: usize,
    entries: usize,
    long: usize,
    fours: usize,
    queries: usize,
    expansions: usize,
}

fn compare_cards(program: &Program, way: &LongWay, tally: &mut Tally) {
    let book = Book { program };
    for (number, definition) in program.tables.definitions.iter().enumerate() {
        let count = definition.parameters;
        tally.definitions += 1;
        tally.brought += definition.brought.is_some() as usize;
        if let Some((_, source)) = definition.brought {
            let source = &program.tables.definitions[source as usize];
            tally.chained += source.brought.is_some() as usize;
        }
        let tree = way.definition(number);
        tally.wide += (count > 3) as usize;
        for levels in vectors(count as usize) {
            let card = program.cards[number].at(levels);
            assert_eq!(card, book.definition(number, levels));
            tally.entries += 1;
            tally.fours += (card == 4) as usize;
            if let Some(tree) = tree {
                assert_eq!(card, way.level(tree, levels));
                tally.long += 1;
            }
        }
        let bytes = program.cards[number].bytes();
        assert_eq!((bytes[0], bytes[15]), (count, 0));
        assert!(bytes[3 + count as usize..11].iter().all(|&mask| mask == 0));
        assert_eq!(bytes[2] as u32 >> count, 0);
        let pairs = u32::from_be_bytes(bytes[11..15].try_into().expect("four bytes"));
        let count = count as u32;
        assert_eq!(pairs >> (count * (count.max(1) - 1) / 2), 0);
    }
}

fn compare_queries(file: &[u8], random: &mut Random, tally: &mut Tally) {
    let mut program = Program::judge(file).expect("an accepted file");
    let mut cards = vec![0; Limits::CARDS];
    for index in 0..program.tables.modules.len() {
        let module = program.tables.modules[index].name;
        for _ in 0..3 {
            let words = Vocabulary::of(&program, &program.tables.modules[index]);
            let count = random.pick(&[0, 1, 2, 3, 4, 6, 8]);
            let deep = random.below(6);
            let expr = gen::expression(random, &words, count, 0, deep);
            let text = program
                .query(module, &expr, count, false)
                .expect("a lawful query");
            let way = LongWay::new(&program, FUEL);
            let Some(tree) = way.expand(text) else {
                continue;
            };
            for _ in 0..6 {
                let levels = any_levels(random, count);
                let long = way.level(&tree, &levels);
                assert_eq!(program.level(text, &levels), long);
                let reply = level(file, &mut cards, module, &expr, &levels);
                assert_eq!(reply, Ok(long as u32));
                tally.queries += 1;
            }
            let bytes = way.bytes(&tree).expect("small indices");
            let mut out = vec![0xEE; bytes.len() + 5];
            let params = count as u8;
            let reply = expand(file, &mut cards, module, &expr, params, &mut out);
            assert_eq!(reply, Ok(bytes.len() as u32));
            assert_eq!(out[..bytes.len()], bytes);
            assert_eq!(out[bytes.len()..], [0xEE; 5]);
            let mut short = vec![0xEE; bytes.len() - 1];
            let reply = expand(file, &mut cards, module, &expr, params, &mut short);
            assert_eq!(reply, Err(Cause::TooLong.at(0)));
            assert!(short.iter().all(|&byte| byte == 0xEE));
            tally.expansions += 1;
        }
    }
}

/// Changes a few bytes.
fn damaged(bytes: &[u8], random: &mut Random) -> Bytes {
    let mut damaged = bytes.to_vec();
    for _ in 0..=random.below(3) {
        if damaged.is_empty() {
            break;
        }
        let place = random.below(damaged.len());
        match random.below(4) {
            0 => damaged[place] = random.below(16) as u8,
            1 => damaged[place] ^= 1 << random.below(8),
            2 => damaged.insert(place, random.below(16) as u8),
            _ => {
                damaged.remove(place);
            }
        }
    }
    damaged
}

/// Where the field with this number begins, if the fields before it are whole.
fn field_start(file: &[u8], number: u32) -> usize {
    let mut at = 0;
    for _ in 0..number {
        at += 3 + u16::from_be_bytes([file[at + 1], file[at + 2]]) as usize;
    }
    at
}

/// A refused file, and what follows from the refusal.
fn refused(file: &[u8], seen: &mut [usize; 22]) {
    let mut cards = vec![0xEE; Limits::CARDS + 10];
    let refusal = match check(file, &mut cards) {
        Ok(count) => {
            assert!(cards[16 * count as usize..].iter().all(|&b| b == 0xEE));
            return;
        }
        Err(refusal) => refusal,
    };
    // The number 15 is not used.
    assert!(matches!(refusal.number, 2..=14 | 16 | 21));
    assert!(cards[..Limits::CARDS].iter().all(|&b| b == 0));
    assert!(cards[Limits::CARDS..].iter().all(|&b| b == 0xEE));
    seen[refusal.number as usize] += 1;
    // The fields before are not at fault, and those after do not matter.
    let start = field_start(file, refusal.place);
    match verdict(&file[..start]) {
        Ok(_) | Err((2, 0)) => {}
        Err(other) => assert_eq!(other, (4, refusal.place)),
    }
    if start + 3 > file.len() {
        return;
    }
    let next = field_start(&file[start..], 1) + start;
    if next <= file.len() {
        let mut changed = file[..next].to_vec();
        assert_eq!(verdict(&changed), Err((refusal.number, refusal.place)));
        changed.extend([0xFF; 9]);
        assert_eq!(verdict(&changed), Err((refusal.number, refusal.place)));
    }
}

/// All ways of asking agree on what is wrong with a query.
fn damage_query(file: &[u8], random: &mut Random) -> Option<u32> {
    let program = Program::judge(file).expect("an accepted file");
    let module = random.below(program.tables.modules.len());
    let module = &program.tables.modules[module];
    let words = Vocabulary::of(&program, module);
    let count = random.pick(&[0, 1, 2, 3, 5, 8]);
    let expr = gen::expression(random, &words, count, 0, 4);
    let expr = damaged(&expr, random);
    let levels = any_levels(random, count);
    let mut cards = vec![0; Limits::CARDS];
    let mut out = vec![0xEE; Limits::EXPANSION];
    let reply = level(file, &mut cards, module.name, &expr, &levels);
    let long = crate::long_way(file, module.name, &expr, &levels, FUEL);
    assert!(long.is_none() || long == Some(reply));
    let length = expand(file, &mut cards, module.name, &expr, count as u8, &mut out);
    match reply {
        Ok(_) => {
            assert!(length.is_ok());
            None
        }
        Err(refusal) => {
            assert_eq!(length, reply);
            assert_eq!(refusal.place as usize, program.fields);
            assert!(out.iter().all(|&byte| byte == 0xEE));
            Some(refusal.number)
        }
    }
}

#[test]
fn cards_the_long_way_and_by_the_book() {
    let mut tally = Tally::default();
    for seed in 1..=3_000 {
        let mut random = Random::new(seed);
        let file = gen::file(&mut random, Program::judge);
        let program = Program::judge(&file).expect("an accepted file");
        let way = LongWay::new(&program, FUEL);
        compare_cards(&program, &way, &mut tally);
        compare_queries(&file, &mut random, &mut tally);
    }
    println!("{tally:?}");
    assert!(tally.definitions > 10_000);
    assert!(tally.brought > 5_000);
    assert!(tally.chained > 800);
    assert!(tally.wide > 3_000);
    assert!(tally.long * 10 > tally.entries * 9);
    assert!(tally.fours * 20 > tally.entries);
    assert!(tally.expansions > 10_000);
}

#[test]
fn damaged_files_and_queries() {
    let mut seen = [0; 22];
    let mut asked = [0; 17];
    for seed in 1..=400 {
        let mut random = Random::new(seed);
        let file = gen::grow(&mut random, Program::judge, &mut |file| {
            refused(file, &mut seen);
            if let Err(Refusal { number: 16, .. }) = Program::judge(file) {
                assert!(Program::judge_leniently(file).is_ok());
            }
        });
        for _ in 0..20 {
            refused(&damaged(&file, &mut random), &mut seen);
        }
        for _ in 0..20 {
            let number = damage_query(&file, &mut random);
            asked[number.unwrap_or(0) as usize] += 1;
        }
    }
    println!("files {seen:?}, queries {asked:?}");
    let common = [3, 4, 5, 6, 7, 8, 9, 10, 12, 14, 16];
    assert!(common.iter().all(|&cause| seen[cause] > 5));
    assert!([0, 3, 9, 10].iter().all(|&cause| asked[cause] > 5));
}

#[test]
fn through_named_instances() {
    let mut tally = Tally::default();
    for seed in 1..=1_000 {
        let mut random = Random::new(seed);
        let file = gen::file(&mut random, Program::judge_leniently);
        let program = Program::judge_leniently(&file).expect("an accepted file");
        let way = LongWay::new(&program, FUEL);
        compare_cards(&program, &way, &mut tally);
    }
    println!("{tally:?}");
    assert!(tally.chained > 800);
}

/// Definitions whose level hangs on what is put for their operators: none is 4 where it is brought, so
/// that only cause 16 is left to judge.
#[test]
fn brought_levels() {
    let mut tally = Tally::default();
    let (mut accepted, mut named, mut lower) = (0, 0, 0);
    for seed in 1..=3_000 {
        let file = gen::delicate_file(&mut Random::new(seed));
        let program = Program::judge_leniently(&file).expect("but for 16");
        let way = LongWay::new(&program, FUEL);
        compare_cards(&program, &way, &mut tally);
        let tables = &program.tables;
        for (number, definition) in tables.definitions.iter().enumerate() {
            if let Some((_, source)) = definition.brought {
                let level = |number: usize| program.cards[number].at_zero();
                let (here, there) = (level(number), level(source as usize));
                assert!(here <= there && (here, there) != (2, 3));
                lower += (here < there) as usize;
            }
        }
        // The last module has six fields; in both the instance is the last but one.
        let places = [program.fields - 8, program.fields - 2];
        let inside = tables.instances.iter().zip(places);
        let mut inside = inside.filter(|(by, _)| tables.modules[by.module].has_instance);
        match inside.next() {
            Some((_, place)) => {
                assert_eq!(verdict(&file), Err((16, place as u32)));
                named += 1;
            }
            None => {
                assert_eq!(verdict(&file), Ok(tables.definitions.len() as u32));
                accepted += 1;
            }
        }
    }
    println!("{tally:?} {accepted} {named} {lower}");
    assert!(accepted > 500 && named > 500 && lower > 500);
}

/// Cause 21 is what the levels of the substitutes say, and without it no level passes the highest of
/// them.
#[test]
fn mixed_substitutes() {
    let mut tally = Tally::default();
    let (mut mixed, mut lawful) = (0, 0);
    for seed in 1..=2_000 {
        let (file, levels) = gen::mixing_file(&mut Random::new(seed));
        if levels.contains(&2) && levels.contains(&3) {
            assert!(matches!(verdict(&file), Err((21, _))));
            mixed += 1;
            continue;
        }
        let program = Program::judge(&file).expect("a lawful instance");
        let way = LongWay::new(&program, FUEL);
        compare_cards(&program, &way, &mut tally);
        let highest = levels.iter().copied().max();
        let at_zero = || program.cards.iter().map(|card| card.at_zero());
        assert!(at_zero().all(|level| Some(level) <= highest));
        lawful += 1;
    }
    println!("{tally:?} {mixed} {lawful}");
    assert!(mixed > 300 && lawful > 300 && tally.brought > 300);
}

/// Generated files, accepted or not.
fn files_of_all_kinds(look: &mut dyn FnMut(&[u8])) {
    for seed in 1..=400 {
        let file = gen::grow(&mut Random::new(seed), Program::judge, look);
        look(&file);
    }
    for seed in 1..=500 {
        look(&gen::delicate_file(&mut Random::new(seed)));
        look(&gen::mixing_file(&mut Random::new(seed)).0);
    }
}

/// Cause 15 never holds where 14 and 21 do not. By each of the wrong rules below something breaks.
#[test]
fn lawful_instances_stay_lawful() {
    let mut seen = Seen::default();
    files_of_all_kinds(&mut |file| {
        let opinion = staying_lawful(file, FUEL);
        assert_eq!(opinion.broken, [], "{file:?}");
        seen += opinion.seen;
    });
    println!("{seen:?}");
    let [constant, other] = [seen.constant, seen.other];
    assert!(constant[1..].iter().flatten().all(|&count| count == 0));
    assert!(constant[0][..4].iter().all(|&count| count > 30));
    assert!((0..4).all(|level| other[level][level] > 30));
    assert!(other[1][0] > 30 && other[2][0] > 10 && other[3][0] > 10);
    assert!(seen.named_inside > 100 && seen.chained > 500 && seen.below > 30);
    let papers = Rules::PAPERS;
    for wrong in [
        Rules {
            variable: 2,
            ..papers
        },
        Rules {
            variable: 3,
            ..papers
        },
        Rules {
            constant: 1,
            ..papers
        },
        Rules {
            operator: 1,
            ..papers
        },
        Rules {
            operator: 2,
            ..papers
        },
        Rules {
            operator: 3,
            ..papers
        },
        Rules {
            mixed: false,
            ..papers
        },
    ] {
        let mut broken = 0;
        files_of_all_kinds(&mut |file| {
            broken += staying_lawful_by(wrong, file, FUEL).broken.len();
        });
        println!("{wrong:?}: {broken}");
        assert!(broken > 0, "{wrong:?}");
    }
}

#[test]
fn long_way_by_number() {
    let file = [
        module(1),
        constant(5, 1),
        def(6, 1, op(112, &[n(5, &[p(0)])])),
        end(),
        module(2),
        instance(7, 1, 1, &[(5, and(p(0), p(1)))]),
        end(),
    ]
    .concat();
    let cards = cards(&file);
    for levels in vectors(2) {
        let long = crate::long_way_definition(&file, 1, levels, 100);
        assert_eq!(long, Some(Ok(card(&cards, 1).at(levels) as u32)));
    }
    assert_eq!(crate::long_way_definition(&file, 1, &[0, 0], 1), None);
    let none = crate::long_way_definition(&file, 2, &[0, 0], 100);
    assert_eq!(none, Some(Err(Cause::NoSuch.at(0))));
}
