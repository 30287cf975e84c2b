//! Configurations: a file that was read and found right.

use crate::boards::{Class, Range};
use crate::lines::{Line, LineFault};
use crate::toml;
use std::fmt;

#[derive(Clone, Debug)]
pub struct Configuration {
    pub is_rotating: bool,
    pub tries: u64,
    /// Pairs of a board's index and its turns.
    pub schedule: Vec<(usize, u32)>,
    pub rounds: u32,
    pub boards: Vec<BoardEntry>,
    /// Where each board answers on the bus.
    pub ranges: Vec<Range>,
    pub mailboxes: Vec<Mailbox>,
}

#[derive(Clone, Debug)]
pub struct BoardEntry {
    pub slot: u32,
    pub level: u32,
    pub range: Range,
    pub class: Class,
    /// The lines that ask for something, with their numbers.
    pub script: Vec<(usize, Line)>,
}

#[derive(Clone, Copy, Debug)]
pub struct Mailbox {
    pub am: u8,
    pub address: u32,
    pub slots: u32,
}

/// Why a file is no configuration; the number is that of its text.
#[derive(Clone, Copy, PartialEq, Eq, Debug)]
pub enum Fault {
    Overlap = 1,
    OutsideSpace = 2,
    Misaligned = 3,
    TooMany = 4,
    BadSize = 5,
    NotToml = 6,
    BadKey = 7,
    BadSlot = 8,
    BadLevel = 9,
    BadWord = 10,
    NoBoard = 11,
    BadSchedule = 12,
    BadMailbox = 13,
}

#[derive(Clone, Copy, PartialEq, Eq, Debug)]
pub enum Refused {
    File(Fault),
    Script {
        slot: u32,
        line: usize,
        fault: LineFault,
    },
    /// The file may well be right; this reader can't say.
    OutsideSubset,
}

impl From<Fault> for Refused {
    fn from(fault: Fault) -> Refused {
        Refused::File(fault)
    }
}

impl From<toml::Fault> for Refused {
    fn from(fault: toml::Fault) -> Refused {
        match fault {
            toml::Fault::NotToml => Fault::NotToml.into(),
            toml::Fault::OutsideSubset => Refused::OutsideSubset,
        }
    }
}

impl fmt::Display for Refused {
    fn fmt(&self, to: &mut fmt::Formatter) -> fmt::Result {
        match self {
            Refused::File(fault) => write!(to, "C{}", *fault as u8),
            Refused::Script { slot, line, fault } => write!(to, "C14 slot {slot} line {line} S{}", *fault as u8),
            Refused::OutsideSubset => write!(to, "outside of the subset"),
        }
    }
}

/// The most bytes of a file.
pub const MOST_BYTES: usize = 2 << 20;
