//! The table of byte locations.

use Level::{High, Low};

#[derive(Clone, Copy, PartialEq, Eq, Debug)]
pub enum Level {
    Low = 0,
    High = 1,
}

/// A row: the bytes by their addresses modulo four, the strobes, and the data lanes in order of address. Lane 0 is
/// D31-D24, lane 3 is D07-D00.
#[derive(Clone, Copy, Debug)]
pub struct Location {
    pub first: u32,
    pub length: usize,
    pub ds1: Level,
    pub ds0: Level,
    pub a01: Level,
    pub lword: Level,
    pub lanes: &'static [usize],
}

const TABLE: [Location; 10] = [
    Location { first: 0, length: 1, ds1: Low, ds0: High, a01: Low, lword: High, lanes: &[2] },
    Location { first: 1, length: 1, ds1: High, ds0: Low, a01: Low, lword: High, lanes: &[3] },
    Location { first: 2, length: 1, ds1: Low, ds0: High, a01: High, lword: High, lanes: &[2] },
    Location { first: 3, length: 1, ds1: High, ds0: Low, a01: High, lword: High, lanes: &[3] },
    Location { first: 0, length: 2, ds1: Low, ds0: Low, a01: Low, lword: High, lanes: &[2, 3] },
    Location { first: 2, length: 2, ds1: Low, ds0: Low, a01: High, lword: High, lanes: &[2, 3] },
    Location { first: 0, length: 4, ds1: Low, ds0: Low, a01: Low, lword: Low, lanes: &[0, 1, 2, 3] },
    Location { first: 0, length: 3, ds1: Low, ds0: High, a01: Low, lword: Low, lanes: &[0, 1, 2] },
    Location { first: 1, length: 3, ds1: High, ds0: Low, a01: Low, lword: Low, lanes: &[1, 2, 3] },
    Location { first: 1, length: 2, ds1: Low, ds0: Low, a01: High, lword: Low, lanes: &[1, 2] },
];

/// The row of the bytes at an address, if there is one.
pub fn look_up(address: u64, length: usize) -> Option<Location> {
    TABLE.into_iter().find(|it| u64::from(it.first) == address % 4 && it.length == length)
}

/// The row whose strobes a datum of eight bytes has.
pub fn wide() -> Location {
    look_up(0, 4).expect("the table has four bytes at 0")
}
