//! The boards, and the arbiter of the bus.

use crate::line::{Access, Kind, Local, LocalAccess, Transfer};

#[derive(Clone, Copy, PartialEq)]
pub enum Space {
    A16,
    A24,
    A32,
}

impl Space {
    pub fn addresses(self) -> u64 {
        match self {
            Space::A16 => 1 << 16,
            Space::A24 => 1 << 24,
            Space::A32 => 1 << 32,
        }
    }
}

/// A datum, held in place.
#[derive(Clone, Copy)]
pub struct Bytes {
    array: [u8; 8],
    length: u8,
}

impl Bytes {
    pub fn new(bytes: &[u8]) -> Self {
        let mut array = [0; 8];
        array[..bytes.len()].copy_from_slice(bytes);
        Bytes { array, length: bytes.len() as u8 }
    }

    pub fn as_slice(&self) -> &[u8] {
        &self.array[..usize::from(self.length)]
    }
}

pub enum Function {
    Set,
    Exchange(Bytes),
    Add(Bytes),
    Compare { expect: Bytes, put: Bytes },
}

impl Function {
    fn apply(&self, memory: &mut [u8]) {
        match self {
            Function::Set => memory[0] |= 0x80,
            Function::Exchange(bytes) => memory.copy_from_slice(bytes.as_slice()),
            Function::Add(bytes) => add(memory, bytes.as_slice()),
            Function::Compare { expect, put } => {
                if memory == expect.as_slice() {
                    memory.copy_from_slice(put.as_slice());
                }
            }
        }
    }
}

/// Adds modulo the numbers of that length, the first byte the most significant.
fn add(sum: &mut [u8], bytes: &[u8]) {
    let mut carry = 0;
    for (sum, &byte) in sum.iter_mut().zip(bytes).rev() {
        let total = u16::from(*sum) + u16::from(byte) + carry;
        *sum = total as u8;
        carry = total >> 8;
    }
}

pub struct Board {
    pub space: Space,
    pub base: u32,
    pub supervisory: bool,
    pub width: u32,
    pub uat: bool,
    pub blt: bool,
    pub rmw: bool,
    pub bytes: Vec<u8>,
    /// The steps that each processor made.
    pub made: Vec<u64>,
}

pub enum Answer<'a> {
    Bytes(&'a [u8]),
    Old(Bytes),
    Done,
    BusError,
}

impl Board {
    /// The offset of a transfer's first byte, if it selects this board.
    pub fn selected(&self, transfer: &Transfer) -> Option<u32> {
        let offset = transfer.address.checked_sub(self.base)?;
        let is_inside = (offset as usize) < self.bytes.len();
        let is_admitted = transfer.supervisory || !self.supervisory;
        (self.space == transfer.space && is_inside && is_admitted).then_some(offset)
    }

    fn answers(&self, kind: Kind, at: u32, length: usize) -> bool {
        let width = match (at % 4, length) {
            (_, 1) => 8,
            (0 | 2, 2) => 16,
            _ => 32,
        };
        let is_unaligned = length == 3 || length == 2 && at % 2 != 0;
        self.width >= width
            && (self.uat || !is_unaligned)
            && (self.blt || kind != Kind::Block)
            && (self.rmw || kind != Kind::Modify)
    }

    /// Answers datum `index` of a transfer that selected the board at `offset`.
    pub fn datum(&mut self, transfer: &Transfer, offset: u32, index: usize) -> Answer<'_> {
        let length = transfer.length;
        let at = offset as usize + index * length;
        if !self.answers(transfer.kind, at as u32, length) {
            return Answer::BusError;
        }
        let Some(memory) = self.bytes.get_mut(at..at + length) else {
            return Answer::BusError;
        };
        match &transfer.access {
            Access::Read | Access::Await(_) => return Answer::Bytes(memory),
            Access::Modify(function) => {
                let old = Bytes::new(memory);
                function.apply(memory);
                return Answer::Old(old);
            }
            Access::Write(bytes) => memory.copy_from_slice(&bytes[index * length..][..length]),
            Access::Fill(bytes) => memory.copy_from_slice(bytes.as_slice()),
        }
        Answer::Done
    }

    /// Answers the board's own processor, by the local port.
    pub fn local(&mut self, local: &Local) -> Answer<'_> {
        let at = local.offset as usize;
        let Some(memory) = self.bytes.get_mut(at..at + local.length) else {
            return Answer::BusError;
        };
        match &local.access {
            LocalAccess::Read => Answer::Bytes(memory),
            LocalAccess::Write(bytes) => {
                memory.copy_from_slice(bytes.as_slice());
                Answer::Done
            }
            LocalAccess::Modify(function) => {
                let old = Bytes::new(memory);
                function.apply(memory);
                Answer::Old(old)
            }
        }
    }
}

/// Grants the bus to the greatest level, and on it to the lowest slot.
#[derive(Default)]
pub struct Arbiter {
    holder: Option<u16>,
    /// Of each level the slots that wait, a bit each.
    waiting: [u32; 4],
    pub steps: u64,
}

impl Arbiter {
    /// Whether the bus is granted at once.
    pub fn ask(&mut self, slot: u16, level: usize) -> bool {
        self.steps += 1;
        if self.holder.is_some() {
            self.waiting[level] |= 1 << slot;
            return false;
        }
        self.holder = Some(slot);
        true
    }

    pub fn look(&mut self, slot: u16) -> bool {
        self.steps += 1;
        self.holder == Some(slot)
    }

    pub fn free(&mut self) {
        self.steps += 1;
        self.holder = self.waiting.iter_mut().rev().find(|slots| **slots != 0).map(|slots| {
            let slot = slots.trailing_zeros();
            *slots &= *slots - 1;
            slot as u16
        });
    }
}
