//! The registers' names: from the file `names` of a folder, and put into what the library prints.

use crate::files;
use std::path::Path;

/// Words of the text, of a printed guard and of SMT-LIB, so that no register or line may have them as its name.
const WORDS: &str = "registers A B proof edition note combine reduce scale strengthen round split close branch claim \
    unfinished as stride by before divides or and _";

pub fn is_name(text: &str) -> bool {
    let mut chars = text.chars();
    chars.next().is_some_and(starts)
        && chars.all(continues)
        && !WORDS.split(' ').any(|word| word == text)
}

pub fn starts(c: char) -> bool {
    c.is_alphabetic() || c == '_'
}

pub fn continues(c: char) -> bool {
    c.is_alphanumeric() || c == '_'
}

/// The names of a folder's registers: those of its file `names`, if there is one, else x, y, z, or x0, x1 and so on.
pub fn read(folder: &Path, constants: usize) -> Result<Vec<String>, String> {
    let path = folder.join("names");
    if !path.exists() {
        return Ok(plain(constants));
    }
    let names: Vec<String> = files::text(&path)?
        .split_whitespace()
        .map(String::from)
        .collect();
    let shown = path.display();
    if constants != 0 && names.len() != constants {
        let found = names.len();
        return Err(format!(
            "{shown}: expected {constants} names, found {found}"
        ));
    }
    for (index, name) in names.iter().enumerate() {
        if !is_name(name) {
            return Err(format!("{shown}: expected a name, found \"{name}\""));
        }
        if names[..index].contains(name) {
            return Err(format!("{shown}: the name \"{name}\" stands there twice"));
        }
    }
    Ok(names)
}

pub fn plain(constants: usize) -> Vec<String> {
    let name = |index: usize| match constants {
        0..=3 => ["x", "y", "z"][index].into(),
        _ => format!("x{index}"),
    };
    (0..constants).map(name).collect()
}

/// Puts names in for r0, r1 and so on, token by token.
pub fn put(text: &str, names: &[String]) -> String {
    let mut out = String::with_capacity(text.len());
    let mut rest = text;
    while !rest.is_empty() {
        let size = rest
            .find(|c: char| !c.is_ascii_alphanumeric())
            .unwrap_or(rest.len());
        let (token, behind) = rest.split_at(size);
        let index = token.strip_prefix('r').and_then(|n| n.parse().ok());
        let name = index.and_then(|index: usize| names.get(index));
        out.push_str(name.map_or(token, |name| name));
        // What stands between two tokens.
        let size = behind
            .find(|c: char| c.is_ascii_alphanumeric())
            .unwrap_or(behind.len());
        out.push_str(&behind[..size]);
        rest = &behind[size..];
    }
    out
}
