//! The tasks of a mailbox. Each transfer asks for the bus by itself, so others may come between two of them.
//!
//! A declared mailbox lies wholly on one board that has width 32 and read-modify-writes, so no transfer on it is
//! answered with a bus error.

use crate::configuration::Mailbox;
use crate::replies::LineReply;
use crate::requests::{Form, Function, Outcome, Request};
use crate::tasks::{Attempt, Event, Processor, Replies};

const LOCK: u32 = 0;
const PUT_COUNT: u32 = 4;
const TAKE_COUNT: u32 = 8;
const WORDS: u32 = 16;
const WORD: u32 = 4;

impl Mailbox {
    /// How many bytes it has.
    pub fn length(&self) -> u64 {
        u64::from(WORDS) + u64::from(WORD) * u64::from(self.slots)
    }

    /// Where the word of a count stands.
    fn place(&self, count: u32) -> u32 {
        WORDS + WORD * (count % self.slots)
    }
}

/// Whether the lock byte says that nobody has the lock.
pub fn is_clear(old: &[u8]) -> bool {
    old[0] & 0x80 == 0
}

pub fn put(processor: &Processor, mailbox: Mailbox, word: &[u8], replies: &mut Replies) -> Result<Attempt, Event> {
    let mut bus = Transfers { processor, mailbox, replies };
    if !bus.lock()? {
        return Ok(Attempt::Retry(LineReply::Busy));
    }
    let put_count = bus.read_count(PUT_COUNT)?;
    let take_count = bus.read_count(TAKE_COUNT)?;
    if put_count == u32::MAX {
        bus.unlock()?;
        return Ok(Attempt::Ended(LineReply::Spent));
    }
    if put_count.wrapping_sub(take_count) >= mailbox.slots {
        bus.unlock()?;
        return Ok(Attempt::Retry(LineReply::Full));
    }
    bus.write(mailbox.place(put_count), word)?;
    bus.write(PUT_COUNT, &(put_count + 1).to_be_bytes())?;
    bus.unlock()?;
    Ok(Attempt::Ended(LineReply::Put))
}

pub fn take(processor: &Processor, mailbox: Mailbox, replies: &mut Replies) -> Result<Attempt, Event> {
    let mut bus = Transfers { processor, mailbox, replies };
    if !bus.lock()? {
        return Ok(Attempt::Retry(LineReply::Busy));
    }
    let put_count = bus.read_count(PUT_COUNT)?;
    let take_count = bus.read_count(TAKE_COUNT)?;
    if put_count == take_count {
        bus.unlock()?;
        return Ok(Attempt::Retry(LineReply::Empty));
    }
    let word = bus.read(mailbox.place(take_count))?;
    bus.write(TAKE_COUNT, &take_count.wrapping_add(1).to_be_bytes())?;
    bus.unlock()?;
    Ok(Attempt::Ended(LineReply::Took(word)))
}

struct Transfers<'a, 'b> {
    processor: &'a Processor<'a>,
    mailbox: Mailbox,
    replies: &'a mut Replies<'b>,
}

impl Transfers<'_, '_> {
    /// Whether the lock was free, and is taken now.
    fn lock(&mut self) -> Result<bool, Event> {
        match self.transfer(LOCK, 1, Form::Modify(Function::Set))? {
            Outcome::Old(old) => Ok(is_clear(&old)),
            outcome => unreachable!("the lock of a mailbox is answered {outcome:?}"),
        }
    }

    fn unlock(&mut self) -> Result<(), Event> {
        self.write(LOCK, &[0])
    }

    fn read_count(&mut self, at: u32) -> Result<u32, Event> {
        let bytes = self.read(at)?;
        Ok(bytes.iter().fold(0, |number, it| number << 8 | u32::from(*it)))
    }

    fn read(&mut self, at: u32) -> Result<Vec<u8>, Event> {
        match self.transfer(at, 4, Form::Read)? {
            Outcome::Read(bytes) => Ok(bytes),
            outcome => unreachable!("a read of a mailbox is answered {outcome:?}"),
        }
    }

    fn write(&mut self, at: u32, bytes: &[u8]) -> Result<(), Event> {
        match self.transfer(at, bytes.len(), Form::Write(bytes.to_vec()))? {
            Outcome::Done => Ok(()),
            outcome => unreachable!("a write of a mailbox is answered {outcome:?}"),
        }
    }

    fn transfer(&mut self, at: u32, length: usize, form: Form) -> Result<Outcome, Event> {
        let Mailbox { am, address, .. } = self.mailbox;
        let request = Request { am, address: address + at, length, form };
        let plan = request.plan().expect("a request on a declared mailbox is lawful");
        self.processor.transfer(&plan, self.replies)
    }
}
