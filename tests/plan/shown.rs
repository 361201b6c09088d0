//! Names as pictures show them.
use crate::xml;

/// The characters of a name. One that is no UTF-8, or has a character that XML has not, is shown byte by byte, each as the character of its
/// number.
pub fn shown(name: &[u8]) -> String {
    match std::str::from_utf8(name) {
        Ok(text) if text.chars().all(xml::has) => text.to_string(),
        _ => name.iter().map(|&b| b as char).collect(),
    }
}

/// The name of a stage or of a type: in a graph file, which has none, a letter and its number.
pub fn called(names: &[Vec<u8>], letter: char, i: usize) -> String {
    names.get(i).map_or(format!("{letter}{i}"), |name| shown(name))
}
