//! A board: its bytes, what its slave answers to, and one step of it.

use crate::codes::{Code, Privilege, Space};
use crate::locations;
use crate::requests::{Action, Plan};

/// What cycles a board answers.
#[derive(Clone, Copy, Debug)]
pub struct Class {
    pub width: u32,
    /// Triple bytes, and the two bytes in the middle.
    pub uat: bool,
    /// Blocks.
    pub blt: bool,
    /// Read-modify-writes.
    pub rmw: bool,
}

/// Where a command comes from.
#[derive(Clone, Copy, PartialEq, Eq, Debug)]
pub enum Port {
    Local,
    Single,
    Block,
}

/// One command on one board.
#[derive(Clone, PartialEq, Eq, Debug)]
pub struct Command {
    pub port: Port,
    pub offset: u64,
    pub length: usize,
    pub action: Action,
}

#[derive(Clone, PartialEq, Eq, Debug)]
pub enum Reply {
    Bytes(Vec<u8>),
    Done,
    Berr,
}

impl Reply {
    pub fn bytes(&self) -> &[u8] {
        match self {
            Reply::Bytes(bytes) => bytes,
            Reply::Done | Reply::Berr => &[],
        }
    }
}

#[derive(Clone, Debug)]
pub struct Board {
    pub class: Class,
    pub bytes: Vec<u8>,
}

impl Board {
    pub fn new(size: u32, class: Class) -> Board {
        Board { class, bytes: vec![0; size as usize] }
    }

    /// Whether the board answers a command with anything but a bus error. Its bytes have no say in that.
    pub fn answers(&self, command: &Command) -> bool {
        let within = command.offset + command.length as u64 <= self.bytes.len() as u64;
        let lengths_agree = match &command.action {
            Action::Read => true,
            Action::Write(bytes) => bytes.len() == command.length,
            Action::Modify(function) => function.has_length(command.length),
        };
        within && lengths_agree && self.class.has(command)
    }

    /// One step: the reply, and the bytes changed as the command says. A bus error changes none.
    pub fn step(&mut self, command: &Command) -> Reply {
        if !self.answers(command) {
            return Reply::Berr;
        }
        let first = command.offset as usize;
        let place = &mut self.bytes[first..first + command.length];
        let old = place.to_vec();
        match &command.action {
            Action::Read => Reply::Bytes(old),
            Action::Write(bytes) => {
                place.copy_from_slice(bytes);
                Reply::Done
            }
            Action::Modify(function) => {
                place.copy_from_slice(&function.value(&old));
                Reply::Bytes(old)
            }
        }
    }
}

impl Class {
    fn has(&self, command: &Command) -> bool {
        let Command { port, offset, length, .. } = *command;
        let is_modify = matches!(command.action, Action::Modify(_));
        let is_aligned = offset % length as u64 == 0;
        match port {
            Port::Local => matches!(length, 1 | 2 | 4),
            Port::Block if length == 8 => offset % 4 == 0 && self.width == 32 && self.blt,
            Port::Block => is_aligned && self.has_cycle(offset, length) && self.blt,
            Port::Single if is_modify => is_aligned && self.has_cycle(offset, length) && self.rmw,
            Port::Single => self.has_cycle(offset, length),
        }
    }

    fn has_cycle(&self, offset: u64, length: usize) -> bool {
        if locations::look_up(offset, length).is_none() {
            return false;
        }
        match (offset % 4, length) {
            (_, 1) => true,
            (0, 2) | (2, 2) => self.width >= 16,
            (0, 4) => self.width == 32,
            _ => self.width == 32 && self.uat,
        }
    }
}

/// Where a board answers on the bus.
#[derive(Clone, Copy, Debug)]
pub struct Range {
    pub space: Space,
    pub base: u32,
    pub size: u32,
    pub supervisory: bool,
}

impl Range {
    pub fn end(&self) -> u64 {
        u64::from(self.base) + u64::from(self.size)
    }

    pub fn admits(&self, code: Code) -> bool {
        self.space == code.space && (!self.supervisory || code.privilege == Privilege::Supervisory)
    }

    pub fn holds(&self, address: u64) -> bool {
        (u64::from(self.base)..self.end()).contains(&address)
    }
}

/// The board that a transfer selects, and the offset there of its first byte.
pub fn select(ranges: &[Range], plan: &Plan) -> Option<(usize, u64)> {
    let address = u64::from(plan.address);
    let board = ranges.iter().position(|it| it.admits(plan.code) && it.holds(address))?;
    Some((board, address - u64::from(ranges[board].base)))
}

/// The command of a datum of a transfer whose first byte is at an offset of the board that it selects.
pub fn command(plan: &Plan, offset: u64, datum: usize) -> Command {
    Command {
        port: if plan.code.is_block() { Port::Block } else { Port::Single },
        offset: offset + (datum * plan.length) as u64,
        length: plan.length,
        action: plan.data[datum].clone(),
    }
}
