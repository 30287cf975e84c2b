//! Runs the scripts turn by turn.

use crate::file::{BoardTable, File};
use crate::line::{Access, Line, Transfer};
use crate::memory::{Answer, Arbiter, Board, Bytes};

pub enum Reply {
    Read(Vec<u8>),
    Done,
    Old(Bytes),
    BusError { count: usize, bytes: Vec<u8> },
    Refused(u8),
    Met,
    Timeout,
    Unfinished,
}

impl Reply {
    pub fn is_good(&self) -> bool {
        matches!(self, Reply::Read(_) | Reply::Done | Reply::Old(_) | Reply::Met)
    }
}

/// Where a transfer stands.
#[derive(Clone, Copy)]
enum Phase {
    Idle,
    Asked,
    Datum(usize),
    Ended,
}

pub struct Processor {
    pub slot: u16,
    level: usize,
    /// Its place among the processors, and that of its board.
    place: usize,
    lines: Vec<(u16, Line)>,
    /// The line at work.
    at: usize,
    phase: Phase,
    /// The board that the transfer selects, and the offset there.
    target: Option<(usize, u32)>,
    /// How many data were answered, and what was read.
    count: usize,
    bytes: Vec<u8>,
    old: Option<Bytes>,
    failed: bool,
    tries: u32,
    pub replies: Vec<(u16, Reply)>,
}

pub struct Machine {
    pub boards: Vec<Board>,
    pub arbiter: Arbiter,
    tries: u32,
}

pub struct World {
    pub machine: Machine,
    pub processors: Vec<Processor>,
}

fn local_reply(answer: Answer<'_>) -> Reply {
    match answer {
        Answer::Bytes(bytes) => Reply::Read(bytes.to_vec()),
        Answer::Old(old) => Reply::Old(old),
        Answer::Done => Reply::Done,
        Answer::BusError => Reply::BusError { count: 0, bytes: Vec::new() },
    }
}

impl Processor {
    fn new(place: usize, slot: u16, level: usize, lines: Vec<(u16, Line)>) -> Self {
        Processor {
            slot,
            level,
            place,
            replies: Vec::with_capacity(lines.len()),
            lines,
            at: 0,
            phase: Phase::Idle,
            target: None,
            count: 0,
            bytes: Vec::new(),
            old: None,
            failed: false,
            tries: 0,
        }
    }

    /// One turn: at most one event.
    fn turn(&mut self, machine: &mut Machine) {
        while let Some((number, line)) = self.lines.get(self.at) {
            let reply = match line {
                Line::Refused(digit) => {
                    self.replies.push((*number, Reply::Refused(*digit)));
                    self.at += 1;
                    continue;
                }
                Line::Local(local) => {
                    let board = &mut machine.boards[self.place];
                    board.made[self.place] += 1;
                    Some(local_reply(board.local(local)))
                }
                Line::Bus(_) => self.transfer_turn(machine),
            };
            if let Some(reply) = reply {
                self.replies.push((self.lines[self.at].0, reply));
                self.at += 1;
                self.tries = 0;
            }
            return;
        }
    }

    /// One event of a transfer, and the line's reply if it ends by that.
    fn transfer_turn(&mut self, machine: &mut Machine) -> Option<Reply> {
        let Line::Bus(transfer) = &self.lines[self.at].1 else {
            return None;
        };
        match self.phase {
            Phase::Idle => {
                self.target = machine.select(transfer);
                let is_granted = machine.arbiter.ask(self.slot, self.level);
                self.begin(is_granted);
            }
            Phase::Asked => {
                if machine.arbiter.look(self.slot) {
                    self.phase = self.granted();
                }
            }
            Phase::Datum(index) => {
                let (board, offset) = self.target?;
                let board = &mut machine.boards[board];
                board.made[self.place] += 1;
                match board.datum(transfer, offset, index) {
                    Answer::Bytes(bytes) => self.bytes.extend_from_slice(bytes),
                    Answer::Old(old) => self.old = Some(old),
                    Answer::Done => {}
                    Answer::BusError => self.failed = true,
                }
                self.count += usize::from(!self.failed);
                let is_last = self.failed || index + 1 == transfer.count;
                self.phase = if is_last { Phase::Ended } else { Phase::Datum(index + 1) };
            }
            Phase::Ended => {
                machine.arbiter.free();
                self.phase = Phase::Idle;
                return self.ended(machine.tries);
            }
        }
        None
    }

    fn begin(&mut self, is_granted: bool) {
        self.count = 0;
        self.bytes.clear();
        self.old = None;
        self.failed = false;
        self.phase = if is_granted { self.granted() } else { Phase::Asked };
    }

    fn granted(&mut self) -> Phase {
        self.failed = self.target.is_none();
        if self.failed {
            Phase::Ended
        } else {
            Phase::Datum(0)
        }
    }

    /// The reply of a line whose transfer has ended, or none where it is made again.
    fn ended(&mut self, tries: u32) -> Option<Reply> {
        let bytes = self.bytes.as_slice();
        if self.failed {
            return Some(Reply::BusError { count: self.count, bytes: bytes.to_vec() });
        }
        let Line::Bus(transfer) = &self.lines[self.at].1 else {
            return None;
        };
        match &transfer.access {
            Access::Await(expected) => {
                self.tries += 1;
                let is_met = bytes == expected.as_slice();
                let is_over = is_met || self.tries == tries;
                is_over.then_some(if is_met { Reply::Met } else { Reply::Timeout })
            }
            Access::Read => Some(Reply::Read(bytes.to_vec())),
            _ => Some(self.old.map_or(Reply::Done, Reply::Old)),
        }
    }

    fn finish(&mut self) {
        let rest = self.lines.iter().skip(self.at);
        self.replies.extend(rest.map(|(number, _)| (*number, Reply::Unfinished)));
    }
}

impl Machine {
    fn select(&self, transfer: &Transfer) -> Option<(usize, u32)> {
        let selected = |(at, board): (usize, &Board)| Some((at, board.selected(transfer)?));
        self.boards.iter().enumerate().find_map(selected)
    }
}

impl World {
    pub fn new(tries: u32, boards: Vec<BoardTable>) -> Self {
        let count = boards.len();
        let mut processors = Vec::with_capacity(count);
        let mut memories = Vec::with_capacity(count);
        for (place, table) in boards.into_iter().enumerate() {
            processors.push(Processor::new(place, table.slot, table.level, table.script));
            memories.push(Board { made: vec![0; count], ..table.board });
        }
        let machine = Machine { boards: memories, arbiter: Arbiter::default(), tries };
        World { machine, processors }
    }

    fn turn(&mut self, place: usize) {
        self.processors[place].turn(&mut self.machine);
    }
}

/// Runs the schedule of a file, then its rounds.
pub fn run(file: File) -> World {
    let mut world = World::new(file.tries, file.boards);
    for (slot, turns) in file.schedule {
        let place = world.processors.iter().position(|processor| processor.slot == slot);
        if let Some(place) = place {
            (0..turns).for_each(|_| world.turn(place));
        }
    }
    for _ in 0..file.rounds {
        (0..world.processors.len()).for_each(|place| world.turn(place));
    }
    world.processors.iter_mut().for_each(Processor::finish);
    world
}
