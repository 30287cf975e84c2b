//! What a master is asked for, which requests it refuses, and the data of those that it accepts.

use crate::boards::Reply;
use crate::codes::{self, Access, Code};
use crate::locations;

/// Why a request is refused; the number is that of its text.
#[derive(Clone, Copy, PartialEq, Eq, Debug)]
pub enum Refusal {
    Reserved = 1,
    UserDefined = 2,
    NoCycle = 3,
    OutsideSpace = 4,
    WrongKindOfCode = 5,
    CrossesBoundary = 6,
    ProgramModify = 7,
    BadCount = 8,
    TooLarge = 9,
}

/// The function of a read-modify-write.
#[derive(Clone, PartialEq, Eq, Debug)]
pub enum Function {
    Set,
    Exchange(Vec<u8>),
    Add(Vec<u8>),
    Compare { expect: Vec<u8>, put: Vec<u8> },
}

impl Function {
    /// What a read-modify-write puts in place of the old bytes.
    pub fn value(&self, old: &[u8]) -> Vec<u8> {
        match self {
            Function::Set => {
                let mut new = old.to_vec();
                new[0] |= 0x80;
                new
            }
            Function::Exchange(put) => put.clone(),
            Function::Add(addend) => sum(old, addend),
            Function::Compare { expect, put } if old == expect => put.clone(),
            Function::Compare { .. } => old.to_vec(),
        }
    }

    /// Whether each datum of the function has this length.
    pub fn has_length(&self, length: usize) -> bool {
        match self {
            Function::Set => true,
            Function::Exchange(bytes) | Function::Add(bytes) => bytes.len() == length,
            Function::Compare { expect, put } => expect.len() == length && put.len() == length,
        }
    }
}

/// The sum of two numbers of equally many bytes, the most significant byte first, without the last carry.
fn sum(left: &[u8], right: &[u8]) -> Vec<u8> {
    let mut bytes = vec![0; left.len()];
    let mut carry = 0;
    for at in (0..left.len()).rev() {
        let digit = u16::from(left[at]) + u16::from(right[at]) + carry;
        bytes[at] = (digit % 256) as u8;
        carry = digit / 256;
    }
    bytes
}

#[derive(Clone, Debug)]
pub enum Form {
    Read,
    Write(Vec<u8>),
    BlockRead { count: usize },
    BlockWrite(Vec<u8>),
    BlockFill { count: usize, bytes: Vec<u8> },
    Modify(Function),
}

/// A request over the bus; `length` is that of one datum.
#[derive(Clone, Debug)]
pub struct Request {
    pub am: u8,
    pub address: u32,
    pub length: usize,
    pub form: Form,
}

/// What happens to one datum.
#[derive(Clone, PartialEq, Eq, Debug)]
pub enum Action {
    Read,
    Write(Vec<u8>),
    Modify(Function),
}

/// A lawful request, with the action of each datum.
#[derive(Clone, Debug)]
pub struct Plan {
    pub code: Code,
    pub address: u32,
    pub length: usize,
    pub data: Vec<Action>,
}

const MOST_DATA: usize = 256;

impl Request {
    /// The lawful request, or the first refusal in their order.
    pub fn plan(&self) -> Result<Plan, Refusal> {
        let code = codes::look_up(self.am)?;
        if self.is_block() != code.is_block() {
            return Err(Refusal::WrongKindOfCode);
        }
        if matches!(self.form, Form::Modify(_)) && code.access == Access::Program {
            return Err(Refusal::ProgramModify);
        }
        if !self.counts_are_right(code) {
            return Err(Refusal::BadCount);
        }
        let data = self.data();
        let first = u64::from(self.address);
        let last = first + (data.len() * self.length) as u64 - 1;
        if last >= code.space.addresses() {
            return Err(Refusal::OutsideSpace);
        }
        if !self.has_cycle() {
            return Err(Refusal::NoCycle);
        }
        let unit = if code.is_wide() { 2048 } else { 256 };
        if self.is_block() && first / unit != last / unit {
            return Err(Refusal::CrossesBoundary);
        }
        Ok(Plan { code, address: self.address, length: self.length, data })
    }

    fn is_block(&self) -> bool {
        matches!(self.form, Form::BlockRead { .. } | Form::BlockWrite(_) | Form::BlockFill { .. })
    }

    fn counts_are_right(&self, code: Code) -> bool {
        let length_is_right = match self.form {
            Form::Read | Form::Write(_) => (1..=4).contains(&self.length),
            _ if code.is_wide() => self.length == 8,
            _ => matches!(self.length, 1 | 2 | 4),
        };
        let count_is_right = |count| (1..=MOST_DATA).contains(&count);
        length_is_right
            && match &self.form {
                Form::Read => true,
                Form::Write(bytes) => bytes.len() == self.length,
                Form::BlockRead { count } => count_is_right(*count),
                Form::BlockWrite(bytes) => {
                    bytes.len() % self.length == 0 && count_is_right(bytes.len() / self.length)
                }
                Form::BlockFill { count, bytes } => count_is_right(*count) && bytes.len() == self.length,
                Form::Modify(function) => function.has_length(self.length),
            }
    }

    fn has_cycle(&self) -> bool {
        match self.form {
            Form::Read | Form::Write(_) => locations::look_up(self.address.into(), self.length).is_some(),
            _ => self.address as usize % self.length == 0,
        }
    }

    fn data(&self) -> Vec<Action> {
        match &self.form {
            Form::Read => vec![Action::Read],
            Form::Write(bytes) => vec![Action::Write(bytes.clone())],
            Form::BlockRead { count } => vec![Action::Read; *count],
            Form::BlockWrite(bytes) => bytes.chunks(self.length).map(|it| Action::Write(it.to_vec())).collect(),
            Form::BlockFill { count, bytes } => vec![Action::Write(bytes.clone()); *count],
            Form::Modify(function) => vec![Action::Modify(function.clone())],
        }
    }
}

/// How a transfer ends.
#[derive(Clone, PartialEq, Eq, Debug)]
pub enum Outcome {
    Read(Vec<u8>),
    Done,
    Old(Vec<u8>),
    /// A bus error, with the number of data answered before it and what a read got by then.
    Berr {
        count: usize,
        bytes: Vec<u8>,
    },
}

impl Plan {
    /// The outcome of a transfer whose data had these replies: all of them, or those up to the first bus error. A
    /// transfer that no board answers has none.
    pub fn outcome(&self, replies: &[&Reply]) -> Outcome {
        let count = replies.iter().take_while(|it| ***it != Reply::Berr).count();
        let bytes = replies.iter().flat_map(|it| it.bytes()).copied().collect();
        if count < self.data.len() {
            return Outcome::Berr { count, bytes };
        }
        match self.data[0] {
            Action::Read => Outcome::Read(bytes),
            Action::Write(_) => Outcome::Done,
            Action::Modify(_) => Outcome::Old(bytes),
        }
    }
}
