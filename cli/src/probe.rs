//! Questions to the archive: what it says of a file changed a little.
//!
//! The levels that a refusal speaks of are asked for in this way, so that none is worked out here.

use crate::archive::{self, MAX_PARAMETERS};
use crate::outline::Declaration;
use notation::{Expr, Field, File, Names, Space, Substitution, Token};

/// The archive's refusal of these fields: number and place; `None` if it accepts them or they
/// have no bytes.
pub fn refusal(fields: &[Field]) -> Option<(u32, usize)> {
    let refused = archive::check(&bytes(fields)?).err()?;
    Some((refused.number, refused.place as usize))
}

fn bytes(fields: &[Field]) -> Option<Vec<u8>> {
    let file = File {
        fields: fields.to_vec(),
        names: Names::new(),
    };
    notation::encode(&file).ok()
}

/// The level, with parameters at these levels, of an expression that stands after these fields of
/// a module; `None` if the archive finds a fault in it.
pub fn level(before: &[Field], levels: &[u8], body: &Expr) -> Option<u8> {
    let (file, module) = ended(before)?;
    archive::level(&file, module, &body.encode(), levels).ok()
}

/// The expansion of such an expression; `None` also if it is too long.
pub fn expansion(before: &[Field], parameters: usize, body: &Expr) -> Option<Expr> {
    let (file, module) = ended(before)?;
    let bytes = archive::expand(&file, module, &body.encode(), parameters).ok()?;
    Expr::decode(&bytes).ok()
}

/// A file that ends after these fields of a module, and that module.
fn ended(before: &[Field]) -> Option<(Vec<u8>, u16)> {
    let module = before.iter().rev().find_map(|field| match field {
        Field::Module { name } => Some(*name),
        _ => None,
    })?;
    let fields = [before, &[Field::End]].concat();
    Some((bytes(&fields)?, module))
}

/// An operator name that nothing uses.
pub fn unused(fields: &[Field], body: &Expr) -> Option<u16> {
    let mut used = vec![false; 65_536];
    used[0] = true;
    for field in fields {
        field.for_each_name(|space, name| used[usize::from(name)] |= space == Space::Operators);
    }
    for token in body.tokens() {
        match *token {
            Token::Name { name, .. } => used[usize::from(name)] = true,
            Token::Instance { instance, name, .. } => {
                used[usize::from(instance)] = true;
                used[usize::from(name)] = true;
            }
            _ => {}
        }
    }
    (1..=u16::MAX).find(|&name| !used[usize::from(name)])
}

/// Whether an instance is refused with a number for one of its declared names: all others are
/// given a literal, which is lawful for each. (An operator with too many arguments for the
/// instance's parameters cannot be given one.)
pub fn at_fault(
    before: &[Field],
    instance: &Field,
    declared: &[Declaration],
    name: u16,
    number: u32,
) -> bool {
    let mut alone = instance.clone();
    let Field::Instance {
        parameters,
        substitutions,
        ..
    } = &mut alone
    else {
        return false;
    };
    let Ok(literal) = Expr::from_tokens(vec![Token::Literal(0)]) else {
        return false;
    };
    let room = MAX_PARAMETERS.saturating_sub(usize::from(*parameters));
    let others = declared
        .iter()
        .filter(|each| each.name != name && usize::from(each.arguments) <= room);
    let others = others.map(|each| Substitution {
        name: each.name,
        expression: literal.clone(),
    });
    substitutions.retain(|each| each.name == name);
    substitutions.extend(others);
    let fields = [before, &[alone, Field::End]].concat();
    refusal(&fields) == Some((number, before.len()))
}
