// How much is measured.
use crate::depot::{MOST_NEAREST, SEGMENTS};

const MOST_SIDE: usize = 64;
const MOST_SITES: usize = 64;

#[derive(Clone, Copy)]
pub struct Sizes {
    pub side: usize,
    pub carryings: u32,
    pub sites: usize,
    pub segments: usize,
    pub nearest: usize,
}

impl Sizes {
    // What the numbers say in this order, each within its bounds; the side is at least 2, so that there is an arc.
    pub fn of(numbers: &[u32]) -> Sizes {
        let said = |place: usize, otherwise: usize| numbers.get(place).map_or(otherwise, |number| *number as usize);
        Sizes {
            side: said(0, MOST_SIDE).clamp(2, MOST_SIDE),
            carryings: said(1, 1_000_000) as u32,
            sites: said(2, MOST_SITES).clamp(1, MOST_SITES),
            segments: said(3, 5).clamp(1, SEGMENTS.len()),
            nearest: said(4, MOST_NEAREST).clamp(1, MOST_NEAREST),
        }
    }
}
