//! Which values the remaining lines read from a byte and write to it. A value that a line still has to read must be
//! there, or another line must still write it.

use super::needs::{answers, steps};
use crate::boards::Command;
use crate::configuration::Configuration;
use crate::lines::Line;
use crate::report::Report;
use crate::requests::Action;
use std::collections::BTreeMap;

/// What a line leaves in a byte.
#[derive(Clone, Copy, PartialEq, Eq, Debug)]
pub enum Left {
    /// What it found there.
    Same,
    Value(u8),
    /// A value with bit 7, which a lock sets.
    Locked,
    Unknown,
}

impl Left {
    /// Whether it may leave a value that was not there before.
    pub fn may_be(self, value: u8) -> bool {
        match self {
            Left::Same => false,
            Left::Value(it) => it == value,
            Left::Locked => value & 0x80 != 0,
            Left::Unknown => true,
        }
    }

    /// Whether it leaves another value for certain.
    pub fn is_other(self, value: u8) -> bool {
        self != Left::Same && !self.may_be(value)
    }
}

/// How a line accesses a byte, by its reply in the report.
#[derive(Clone, Copy, Debug)]
pub struct Access {
    pub line: usize,
    /// The place of the command in its line.
    pub datum: usize,
    pub read: Option<u8>,
    pub left: Left,
}

/// A processor that writes something, and the last line that does so.
#[derive(Clone, Copy, Debug)]
struct Supply {
    who: usize,
    left: Left,
    last: usize,
}

#[derive(Default)]
pub struct Byte {
    /// By processor, in the order of its lines.
    pub accesses: BTreeMap<usize, Vec<Access>>,
    supplies: Vec<Supply>,
}

pub struct Supplies {
    /// By board and offset, the bytes that several processors access.
    pub bytes: BTreeMap<(usize, u64), Byte>,
}

impl Supplies {
    pub fn of(configuration: &Configuration, report: &Report) -> Supplies {
        let mut supplies = Supplies { bytes: BTreeMap::new() };
        for (who, entry) in configuration.boards.iter().enumerate() {
            for (number, (_, line)) in entry.script.iter().enumerate() {
                supplies.add(configuration, who, number, line, &report.replies[who][number]);
            }
        }
        // A byte that one processor accesses alone has what its lines say.
        supplies.bytes.retain(|_, it| it.accesses.len() > 1);
        supplies
    }

    fn add(&mut self, configuration: &Configuration, who: usize, number: usize, line: &Line, reply: &str) {
        if matches!(line, Line::Put(..) | Line::Take(_)) {
            // No other line names a byte of a mailbox.
            return;
        }
        let shown = shown(line, reply);
        let mut from = 0;
        for (datum, (board, command)) in steps(configuration, who, line).into_iter().enumerate() {
            if !answers(configuration, board, &command) {
                return;
            }
            let here = shown.get(from..from + command.length);
            from += command.length;
            let left = left(line, reply, &command, here);
            for (place, left) in left.into_iter().enumerate() {
                let access = Access { line: number, datum, read: here.map(|it| it[place]), left };
                let offset = command.offset + place as u64;
                self.bytes.entry((board, offset)).or_default().add(who, access);
            }
        }
    }

    /// Whether, for each byte, the remaining lines can find what they have to read, and can leave what the report has at
    /// the end.
    pub fn fit(
        &self,
        line: impl Fn(usize) -> usize,
        byte: impl Fn((usize, u64)) -> u8,
        last: impl Fn((usize, u64)) -> u8,
    ) -> bool {
        self.bytes.iter().all(|(at, it)| it.reads_fit(byte(*at), &line) && it.ends_with(last(*at), &line))
    }
}

impl Byte {
    fn add(&mut self, who: usize, access: Access) {
        self.accesses.entry(who).or_default().push(access);
        match self.supplies.iter_mut().find(|it| it.who == who && it.left == access.left) {
            Some(supply) => supply.last = access.line,
            None => self.supplies.push(Supply { who, left: access.left, last: access.line }),
        }
    }

    /// Whether another processor may still write a value.
    fn is_supplied(&self, value: u8, to: usize, line: &impl Fn(usize) -> usize) -> bool {
        self.supplies.iter().any(|it| it.who != to && it.left.may_be(value) && it.last >= line(it.who))
    }

    /// Whether each processor can find what it reads: what is there or what it wrote itself, or what another writes.
    fn reads_fit(&self, current: u8, line: &impl Fn(usize) -> usize) -> bool {
        self.accesses.iter().all(|(who, accesses)| {
            let mut found = Some(current);
            accesses.iter().filter(|it| it.line >= line(*who)).all(|access| {
                let fits = match (access.read, found) {
                    (Some(read), Some(found)) => read == found || self.is_supplied(read, *who, line),
                    _ => true,
                };
                found = access.read.or(found);
                match access.left {
                    Left::Same => {}
                    Left::Value(value) => found = Some(value),
                    Left::Locked | Left::Unknown => found = None,
                }
                fits
            })
        })
    }

    /// Whether some processor's last write leaves a value, or none is left.
    fn ends_with(&self, value: u8, line: &impl Fn(usize) -> usize) -> bool {
        let mut is_written = false;
        for (who, accesses) in &self.accesses {
            let writes = accesses.iter().filter(|it| it.left != Left::Same && it.line >= line(*who));
            match writes.last().map(|it| it.left) {
                None => {}
                Some(left) if left.is_other(value) => is_written = true,
                Some(_) => return true,
            }
        }
        !is_written
    }
}

/// The bytes that the reply of a line shows, or that an `await` met.
fn shown(line: &Line, reply: &str) -> Vec<u8> {
    let digits = match (line, reply.split(' ').collect::<Vec<_>>().as_slice()) {
        (Line::Await(_, bytes), ["met"]) => return bytes.clone(),
        (_, ["read" | "old", digits] | ["berr", _, digits]) => *digits,
        _ => return Vec::new(),
    };
    let pairs = digits.as_bytes().chunks(2);
    let bytes = pairs.map(|it| std::str::from_utf8(it).ok().and_then(|it| u8::from_str_radix(it, 16).ok()));
    bytes.collect::<Option<_>>().unwrap_or_default()
}

/// What a command of a line leaves in its bytes, where the reply shows some bytes of it.
fn left(line: &Line, reply: &str, command: &Command, shown: Option<&[u8]>) -> Vec<Left> {
    match (&command.action, shown) {
        (Action::Read, _) => vec![Left::Same; command.length],
        (Action::Write(bytes), _) => bytes.iter().map(|it| Left::Value(*it)).collect(),
        (Action::Modify(_), _) if matches!(line, Line::Lock(_)) && reply == "busy" => {
            vec![Left::Same; command.length]
        }
        (Action::Modify(function), Some(old)) => {
            let new = function.value(old).into_iter();
            new.zip(old).map(|(new, old)| if new == *old { Left::Same } else { Left::Value(new) }).collect()
        }
        (Action::Modify(_), _) if matches!(line, Line::Lock(_)) => vec![Left::Locked; command.length],
        (Action::Modify(_), None) => vec![Left::Unknown; command.length],
    }
}
