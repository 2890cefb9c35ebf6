//! Writes files and expressions.

pub type Bytes = Vec<u8>;

fn field(tag: u8, payload: &[u8]) -> Bytes {
    let mut bytes = vec![tag];
    bytes.extend((payload.len() as u16).to_be_bytes());
    bytes.extend(payload);
    bytes
}

/// A field of any tag and payload.
pub fn raw(tag: u8, payload: &[u8]) -> Bytes {
    field(tag, payload)
}

pub fn module(name: u16) -> Bytes {
    field(1, &name.to_be_bytes())
}

pub fn extends(names: &[u16]) -> Bytes {
    let payload: Bytes = names.iter().flat_map(|name| name.to_be_bytes()).collect();
    field(2, &payload)
}

pub fn constant(name: u16, count: u8) -> Bytes {
    let [high, low] = name.to_be_bytes();
    field(3, &[high, low, count])
}

pub fn variable(name: u16) -> Bytes {
    field(4, &name.to_be_bytes())
}

pub fn def(name: u16, parameters: u8, body: Bytes) -> Bytes {
    let [high, low] = name.to_be_bytes();
    let mut payload = vec![high, low, parameters];
    payload.extend(body);
    field(5, &payload)
}

pub fn instance(name: u16, parameters: u8, of: u16, with: &[(u16, Bytes)]) -> Bytes {
    let mut payload = name.to_be_bytes().to_vec();
    payload.push(parameters);
    payload.extend(of.to_be_bytes());
    payload.push(with.len() as u8);
    for (name, expression) in with {
        payload.extend(name.to_be_bytes());
        payload.extend((expression.len() as u16).to_be_bytes());
        payload.extend(expression);
    }
    field(6, &payload)
}

pub fn end() -> Bytes {
    field(7, &[])
}

pub fn assume(formula: Bytes) -> Bytes {
    field(8, &formula)
}

pub fn theorem(formula: Bytes) -> Bytes {
    field(9, &formula)
}

/// Parameter.
pub fn p(index: u8) -> Bytes {
    vec![0, index]
}

/// Bound variable.
pub fn b(index: u16) -> Bytes {
    let [high, low] = index.to_be_bytes();
    vec![1, high, low]
}

/// Literal.
pub fn lit(value: u16) -> Bytes {
    let [high, low] = value.to_be_bytes();
    vec![5, high, low]
}

/// Operator by name.
pub fn n(name: u16, arguments: &[Bytes]) -> Bytes {
    let mut bytes = vec![2];
    bytes.extend(name.to_be_bytes());
    bytes.push(arguments.len() as u8);
    bytes.extend(arguments.concat());
    bytes
}

/// I!F.
pub fn io(instance: u16, name: u16, arguments: &[Bytes]) -> Bytes {
    let mut bytes = vec![3];
    bytes.extend(instance.to_be_bytes());
    bytes.extend(name.to_be_bytes());
    bytes.push(arguments.len() as u8);
    bytes.extend(arguments.concat());
    bytes
}

/// Built-in.
pub fn op(code: u8, arguments: &[Bytes]) -> Bytes {
    let mut bytes = vec![4, code];
    bytes.extend(arguments.concat());
    bytes
}

pub fn prime(e: Bytes) -> Bytes {
    op(112, &[e])
}

pub fn always(e: Bytes) -> Bytes {
    op(118, &[e])
}

pub fn and(a: Bytes, b: Bytes) -> Bytes {
    op(49, &[a, b])
}

/// So many one-argument operators around an expression.
pub fn wrap(times: usize, e: Bytes) -> Bytes {
    let mut bytes = [4, 16].repeat(times);
    bytes.extend(e);
    bytes
}

/// The verdict on a file in fresh card memory.
pub fn verdict(file: &[u8]) -> Result<u32, (u32, u32)> {
    let mut cards = vec![0; crate::Limits::CARDS];
    crate::check(file, &mut cards).map_err(|refusal| (refusal.number, refusal.place))
}

/// The cards of an accepted file.
pub fn cards(file: &[u8]) -> Vec<u8> {
    let mut cards = vec![0; crate::Limits::CARDS];
    crate::check(file, &mut cards).expect("an accepted file");
    cards
}

/// One of the cards.
pub fn card(cards: &[u8], number: usize) -> crate::cards::Card {
    let bytes = &cards[crate::Limits::CARD * number..][..crate::Limits::CARD];
    crate::cards::Card::of(bytes.try_into().expect("a card's bytes"))
}
