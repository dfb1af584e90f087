//! A refusal: its number and its place, and which one is given when several apply.

#[derive(Clone, Copy, Debug, PartialEq, Eq)]
pub struct Refusal {
    pub number: u8,
    pub place: usize,
}

/// The refusal `number` at place 0 exactly if `fault` holds.
pub fn when(fault: bool, number: u8) -> Option<Refusal> {
    fault.then_some(Refusal { number, place: 0 })
}

/// The refusal `number` at the place found, if one was found.
pub fn at(place: Option<usize>, number: u8) -> Option<Refusal> {
    place.map(|place| Refusal { number, place })
}

/// Of all that apply the one with the lowest number.
pub fn lowest(faults: &[Option<Refusal>]) -> Result<(), Refusal> {
    match faults.iter().flatten().min_by_key(|r| r.number) {
        Some(refusal) => Err(*refusal),
        None => Ok(()),
    }
}

/// Of all that apply the one that stands first, for the calls with an order of their own.
pub fn first(faults: &[Option<Refusal>]) -> Result<(), Refusal> {
    match faults.iter().flatten().next() {
        Some(refusal) => Err(*refusal),
        None => Ok(()),
    }
}
