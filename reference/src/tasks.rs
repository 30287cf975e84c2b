//! The events of a script line. Each task is a function of the replies so far, which it reads from the first on.
//! Where they end, the task returns its next event.

use crate::arbiter;
use crate::boards::{self, Command, Reply};
use crate::configuration::{Configuration, Mailbox};
use crate::lines::{Asked, Line};
use crate::mailboxes::{self, is_clear};
use crate::replies::LineReply;
use crate::requests::{Action, Outcome, Plan};

/// One command on one object.
#[derive(Clone, PartialEq, Eq, Debug)]
pub enum Event {
    Board { board: usize, command: Command },
    Bus(arbiter::Command),
}

#[derive(Clone, PartialEq, Eq, Debug)]
pub enum EventReply {
    Board(Reply),
    Bus(arbiter::Reply),
}

/// How one attempt of a line ends.
#[derive(Debug)]
pub enum Attempt {
    Ended(LineReply),
    /// The line tries again. If it has no attempt left, it ends with this reply.
    Retry(LineReply),
}

/// The processor of a board.
#[derive(Clone, Copy)]
pub struct Processor<'a> {
    pub configuration: &'a Configuration,
    pub board: usize,
}

/// The replies of an attempt that its task has not read yet.
pub struct Replies<'a>(pub &'a [EventReply]);

impl<'a> Replies<'a> {
    /// The next reply, or the event that it belongs to if there is none yet.
    fn call(&mut self, event: impl FnOnce() -> Event) -> Result<&'a EventReply, Event> {
        let (reply, rest) = self.0.split_first().ok_or_else(event)?;
        self.0 = rest;
        Ok(reply)
    }

    fn bus(&mut self, command: arbiter::Command) -> Result<arbiter::Reply, Event> {
        match self.call(|| Event::Bus(command))? {
            EventReply::Bus(reply) => Ok(*reply),
            EventReply::Board(_) => unreachable!("the arbiter replies to {command:?}"),
        }
    }

    fn board(&mut self, board: usize, command: impl FnOnce() -> Command) -> Result<&'a Reply, Event> {
        match self.call(|| Event::Board { board, command: command() })? {
            EventReply::Board(reply) => Ok(reply),
            EventReply::Bus(_) => unreachable!("a board replies to its command"),
        }
    }
}

impl Processor<'_> {
    fn mailbox(&self, number: usize) -> Mailbox {
        self.configuration.mailboxes[number - 1]
    }

    /// One attempt of a line: how it ends, or the next event.
    pub fn attempt(&self, line: &Line, replies: &mut Replies) -> Result<Attempt, Event> {
        match line {
            Line::Bus(asked) => self.ask(asked, replies, |outcome| Attempt::Ended(LineReply::Transfer(outcome))),
            Line::Local(command) => self.local(command, replies),
            Line::Await(asked, bytes) => self.ask(asked, replies, |outcome| match outcome {
                Outcome::Read(read) if read == *bytes => Attempt::Ended(LineReply::Met),
                Outcome::Read(_) => Attempt::Retry(LineReply::Timeout),
                outcome => Attempt::Ended(LineReply::Transfer(outcome)),
            }),
            Line::Lock(asked) => self.ask(asked, replies, |outcome| match outcome {
                Outcome::Old(old) if is_clear(&old) => Attempt::Ended(LineReply::Taken),
                Outcome::Old(_) => Attempt::Retry(LineReply::Busy),
                outcome => Attempt::Ended(LineReply::Transfer(outcome)),
            }),
            Line::Unlock(asked) => self.ask(asked, replies, |it| Attempt::Ended(LineReply::Transfer(it))),
            Line::Put(mailbox, word) => mailboxes::put(self, self.mailbox(*mailbox), word, replies),
            Line::Take(mailbox) => mailboxes::take(self, self.mailbox(*mailbox), replies),
        }
    }

    fn local(&self, command: &Command, replies: &mut Replies) -> Result<Attempt, Event> {
        let outcome = match replies.board(self.board, || command.clone())? {
            Reply::Berr => Outcome::Berr { count: 0, bytes: Vec::new() },
            Reply::Done => Outcome::Done,
            Reply::Bytes(bytes) if command.action == Action::Read => Outcome::Read(bytes.clone()),
            Reply::Bytes(bytes) => Outcome::Old(bytes.clone()),
        };
        Ok(Attempt::Ended(LineReply::Transfer(outcome)))
    }

    fn ask(
        &self,
        asked: &Asked,
        replies: &mut Replies,
        end: impl FnOnce(Outcome) -> Attempt,
    ) -> Result<Attempt, Event> {
        match asked {
            Ok(plan) => Ok(end(self.transfer(plan, replies)?)),
            Err(refusal) => Ok(Attempt::Ended(LineReply::Refused(*refusal))),
        }
    }

    /// A transfer over the bus: it asks for the bus, looks until the bus is granted, makes one event a datum up to the
    /// first bus error, and frees the bus.
    pub fn transfer(&self, plan: &Plan, replies: &mut Replies) -> Result<Outcome, Event> {
        let level = self.configuration.boards[self.board].level;
        let mut reply = replies.bus(arbiter::Command::Ask { level })?;
        while reply == arbiter::Reply::Waiting {
            reply = replies.bus(arbiter::Command::Look)?;
        }
        assert_eq!(reply, arbiter::Reply::Granted, "no processor asks out of turn");
        let mut answered = Vec::new();
        if let Some((board, offset)) = boards::select(&self.configuration.ranges, plan) {
            for datum in 0..plan.data.len() {
                let reply = replies.board(board, || boards::command(plan, offset, datum))?;
                answered.push(reply);
                if *reply == Reply::Berr {
                    break;
                }
            }
        }
        let reply = replies.bus(arbiter::Command::Done)?;
        assert_eq!(reply, arbiter::Reply::Freed, "who is done held the bus");
        Ok(plan.outcome(&answered))
    }
}
