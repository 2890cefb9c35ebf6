//! Definitions by number or name.

use crate::input::Input;
use crate::json;
use crate::outline::{Definition, Outline};
use crate::Misuse;

/// The number of the definition that is meant; a number is taken as it is.
pub fn chosen(input: &Input, outline: &Outline, wanted: &str) -> Result<u32, Misuse> {
    if let Ok(number) = wanted.parse() {
        return Ok(number);
    }
    let (module, name) = match wanted.split_once(':') {
        Some((module, name)) => (Some(module), name),
        None => (None, wanted),
    };
    let meant = |definition: &Definition| {
        let within = input.module(definition.module);
        json::written(input, definition) == name && module.unwrap_or(&within) == within
    };
    let all = outline.definitions.iter().enumerate();
    let found: Vec<usize> = all
        .filter(|(_, each)| meant(each))
        .map(|(number, _)| number)
        .collect();
    match found[..] {
        [one] => Ok(one as u32),
        [] => Err(Misuse::Message(format!(
            "{}: no definition {wanted}; `rafterclary list --names` has them all",
            input.name
        ))),
        _ => {
            let each = found.iter().map(|&number| {
                let definition = &outline.definitions[number];
                format!("{number} ({}:{name})", input.module(definition.module))
            });
            let each: Vec<String> = each.collect();
            let message = format!(
                "{}: several are called {name}: {}",
                input.name,
                each.join(", ")
            );
            Err(Misuse::Message(message))
        }
    }
}

/// The names of a definition's parameters, an instance's before its own.
pub fn parameters(input: &Input, outline: &Outline, definition: &Definition) -> Vec<String> {
    let mut names = Vec::new();
    let mut here = Some(definition);
    let mut left = usize::from(definition.parameters);
    while let Some(definition) = here {
        let original = definition
            .original
            .map(|number| &outline.definitions[number]);
        let later = original.map_or(0, |original| usize::from(original.parameters));
        for place in 0..left.saturating_sub(later) {
            let spelled = input.file.names.local(definition.field, place);
            let name = spelled.map_or_else(|| format!("p{}", names.len()), str::to_string);
            names.push(name);
        }
        left = later;
        here = original;
    }
    names
}
