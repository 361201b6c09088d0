//! A number that says no, with its place.

#[derive(Clone, Copy, Debug, PartialEq, Eq)]
pub struct Refusal {
    pub number: u32,
    pub place: usize,
}

/// Refuses with `number` at place 0 when `holds`.
pub fn refuse_if(number: u32, holds: bool) -> Result<(), Refusal> {
    refuse_first(number, 0, [holds])
}

/// Refuses with `number` at the first place that holds; the places count on from `from`.
pub fn refuse_first(number: u32, from: usize, holds: impl IntoIterator<Item = bool>) -> Result<(), Refusal> {
    match holds.into_iter().position(|h| h) {
        Some(k) => Err(Refusal { number, place: from + k }),
        None => Ok(()),
    }
}
