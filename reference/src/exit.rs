//! How the program exits: its status, its output, and its line on standard error.

use crate::configuration::Refused;

pub const CLEAN: u8 = 0;
pub const MARKED: u8 = 1;
pub const REFUSED: u8 = 2;
pub const FAULT: u8 = 3;
/// The file is outside of the subset of TOML that the reference reads.
pub const OUTSIDE: u8 = 4;
/// The search reached its bound.
pub const NOT_DECIDED: u8 = 5;

pub const USAGE: &str = "usage: vme cycles | vme step FILE | vme run FILE";

#[derive(Clone, PartialEq, Eq, Debug)]
pub struct Exit {
    pub status: u8,
    pub output: Vec<u8>,
    /// The line on standard error, or an empty text.
    pub error: String,
}

impl Exit {
    pub fn report(output: impl Into<Vec<u8>>, is_clean: bool) -> Exit {
        Exit { status: if is_clean { CLEAN } else { MARKED }, output: output.into(), error: String::new() }
    }

    pub fn fault(fault: &str) -> Exit {
        Exit { status: FAULT, output: Vec::new(), error: format!("vme: {fault}\n") }
    }

    /// An answer of the reference's own.
    pub fn answer(status: u8, answer: &str) -> Exit {
        Exit { status, output: Vec::new(), error: format!("reference: {answer}\n") }
    }

    pub fn usage() -> Exit {
        Exit { status: REFUSED, output: Vec::new(), error: format!("vme: {USAGE}\n") }
    }

    pub fn refused(why: Refused) -> Exit {
        let (status, name) = match why {
            Refused::OutsideSubset => (OUTSIDE, "reference"),
            Refused::File(_) | Refused::Script { .. } => (REFUSED, "vme"),
        };
        Exit { status, output: Vec::new(), error: format!("{name}: {why}\n") }
    }
}
