//! The whole machine: the boards, the arbiter, and one processor a board that executes its script.

use crate::arbiter::{self, Arbiter};
use crate::boards::Board;
use crate::configuration::Configuration;
use crate::replies::LineReply;
use crate::tasks::{Attempt, Event, EventReply, Processor, Replies};

/// The state of a processor.
#[derive(Clone, Default, PartialEq, Eq, Debug)]
pub struct Position {
    /// The index of the current line among those that ask for something.
    pub line: usize,
    /// The failed attempts of the current line.
    pub tries: u64,
    /// The replies of the current attempt. Of consecutive replies that the bus is not granted yet it keeps the first.
    pub replies: Vec<EventReply>,
}

/// What a processor does next.
pub enum Next {
    Event(Event),
    /// The current line ends with this reply.
    Ended(LineReply),
    /// No line is left.
    Nothing,
}

impl Position {
    pub fn next(&self, processor: Processor) -> Next {
        let script = &processor.configuration.boards[processor.board].script;
        let Some((_, line)) = script.get(self.line) else {
            return Next::Nothing;
        };
        match processor.attempt(line, &mut Replies(&self.replies)) {
            Err(event) => Next::Event(event),
            Ok(Attempt::Ended(reply) | Attempt::Retry(reply)) => Next::Ended(reply),
        }
    }

    /// Takes the reply of the next event. Returns the line's reply if the line ends; only `leave_line` moves on.
    pub fn take(&mut self, processor: Processor, reply: EventReply) -> Option<LineReply> {
        let waits = EventReply::Bus(arbiter::Reply::Waiting);
        if reply != waits || self.replies.last() != Some(&waits) {
            self.replies.push(reply);
        }
        let line = &processor.configuration.boards[processor.board].script[self.line].1;
        match processor.attempt(line, &mut Replies(&self.replies)) {
            Err(_) => None,
            Ok(Attempt::Ended(reply)) => Some(reply),
            Ok(Attempt::Retry(reply)) => {
                self.tries += 1;
                self.replies.clear();
                (self.tries == processor.configuration.tries).then_some(reply)
            }
        }
    }

    pub fn leave_line(&mut self) {
        *self = Position { line: self.line + 1, ..Position::default() };
    }
}

#[derive(Clone)]
pub struct Machine<'a> {
    pub configuration: &'a Configuration,
    pub boards: Vec<Board>,
    arbiter: Arbiter,
    positions: Vec<Position>,
    /// By processor, the replies of the lines that have ended.
    pub replies: Vec<Vec<LineReply>>,
    /// By board and processor, how many steps of the board the processor made.
    pub made: Vec<Vec<u64>>,
}

impl<'a> Machine<'a> {
    pub fn new(configuration: &'a Configuration) -> Machine<'a> {
        let count = configuration.boards.len();
        Machine {
            configuration,
            boards: configuration.boards.iter().map(|it| Board::new(it.range.size, it.class)).collect(),
            arbiter: Arbiter::new(configuration.is_rotating),
            positions: vec![Position::default(); count],
            replies: vec![Vec::new(); count],
            made: vec![vec![0; count]; count],
        }
    }

    /// Whether a processor has no line left.
    pub fn is_done(&self, board: usize) -> bool {
        self.positions[board].line == self.configuration.boards[board].script.len()
    }

    /// One turn: lines that need no event end, until a line has an event; that event is made.
    pub fn turn(&mut self, board: usize) {
        let processor = Processor { configuration: self.configuration, board };
        loop {
            match self.positions[board].next(processor) {
                Next::Nothing => return,
                Next::Ended(reply) => self.end_line(board, reply),
                Next::Event(event) => {
                    let reply = self.apply(board, &event);
                    if let Some(reply) = self.positions[board].take(processor, reply) {
                        self.end_line(board, reply);
                    }
                    return;
                }
            }
        }
    }

    fn end_line(&mut self, board: usize, reply: LineReply) {
        self.replies[board].push(reply);
        self.positions[board].leave_line();
    }

    fn apply(&mut self, who: usize, event: &Event) -> EventReply {
        match event {
            Event::Board { board, command } => {
                self.made[*board][who] += 1;
                EventReply::Board(self.boards[*board].step(command))
            }
            Event::Bus(command) => {
                let slot = self.configuration.boards[who].slot;
                EventReply::Bus(self.arbiter.step(slot, *command))
            }
        }
    }
    /// Everything that later events and the report depend on.
    #[cfg(test)]
    pub fn key(&self) -> String {
        let bytes: Vec<_> = self.boards.iter().map(|it| &it.bytes).collect();
        format!("{bytes:?} {:?} {:?} {:?} {:?}", self.arbiter, self.positions, self.replies, self.made)
    }
}
