//! What each script line needs for its reply in the report: how many steps of which board, and which bytes.

use crate::boards::{self, Board, Command};
use crate::configuration::Configuration;
use crate::lines::{Asked, Line};
use crate::report::Report;
use crate::requests::{Action, Form, Plan, Request};
use std::collections::HashMap;

/// What the failed attempts of a line cost.
#[derive(Clone, Copy, PartialEq, Eq, Debug)]
pub enum Retries {
    /// The number of the line's steps follows from its reply.
    Fixed,
    /// One step each, which changes no byte; their number is open.
    OneStep,
    /// One step each, or four of which two write; their number is open.
    OneOrFour,
}

#[derive(Clone, Copy, Debug)]
pub struct Need {
    /// The board of its steps, if it makes any.
    pub board: Option<usize>,
    /// The failed attempts that it needs before the last attempt.
    pub failed: u64,
    /// The steps of the last attempt.
    pub last: u64,
    pub retries: Retries,
    /// The most failed attempts before the last.
    pub most_failed: u64,
}

impl Need {
    /// The least steps that it still needs after some failed attempts.
    pub fn least(&self, tries: u64) -> u64 {
        self.failed.saturating_sub(tries) + self.last
    }

    /// The most steps that it can make beyond these.
    pub fn capacity(&self, tries: u64) -> u64 {
        let left = self.most_failed.saturating_sub(tries);
        let due = self.failed.saturating_sub(tries);
        match self.retries {
            Retries::Fixed => 0,
            Retries::OneStep => left,
            Retries::OneOrFour => VAIN_TASK * left - due,
        }
    }
}

/// What the lines after one need on a board.
#[derive(Clone, Copy, Default, Debug)]
pub struct Later {
    pub least: u64,
    pub capacity: u64,
}

#[derive(Clone, Copy, Debug)]
pub struct Touched {
    pub board: usize,
    pub first: u64,
    pub end: u64,
    pub writes: bool,
}

/// A processor that touches a byte, its last line that does so, and its last line that may write the byte.
#[derive(Clone, Copy, Debug)]
struct Visitor {
    who: usize,
    last: usize,
    last_writing: Option<usize>,
}

pub struct Needs {
    /// By processor and line.
    pub lines: Vec<Vec<Need>>,
    /// By processor, line and board.
    pub later: Vec<Vec<Vec<Later>>>,
    /// By processor and board: the last line with an open number of steps, and the last whose failed attempts cost one
    /// step or four.
    pub last_open: Vec<Vec<Option<usize>>>,
    pub last_mixed: Vec<Vec<Option<usize>>>,
    /// The last line whose failed attempts cost one step each.
    pub last_one_step: Vec<Vec<Option<usize>>>,
    /// The last put or take whose reply in the report is `busy`.
    pub last_busy: Vec<Vec<Option<usize>>>,
    /// By processor and line.
    pub touched: Vec<Vec<Vec<Touched>>>,
    visitors: HashMap<(usize, u64), Vec<Visitor>>,
}

/// The steps of a put or take that succeeds, of one that finds the mailbox full or empty, and of one that finds the
/// lock taken.
const WHOLE_TASK: u64 = 6;
const BUSY_TRY: u64 = 1;
const VAIN_TASK: u64 = 4;

impl Needs {
    pub fn of(configuration: &Configuration, report: &Report) -> Needs {
        let boards = configuration.boards.len();
        let mut needs = Needs {
            lines: Vec::new(),
            later: Vec::new(),
            last_open: vec![vec![None; boards]; boards],
            last_mixed: vec![vec![None; boards]; boards],
            last_one_step: vec![vec![None; boards]; boards],
            last_busy: vec![vec![None; boards]; boards],
            touched: Vec::new(),
            visitors: HashMap::new(),
        };
        for (who, entry) in configuration.boards.iter().enumerate() {
            let all = entry.script.iter().zip(&report.replies[who]);
            let lines: Vec<_> = all.map(|((_, line), reply)| need(configuration, report, who, line, reply)).collect();
            needs.later.push(later(&lines, boards));
            needs.note_open(who, &lines);
            needs.lines.push(lines);
            let touched: Vec<_> = entry.script.iter().map(|(_, line)| touched(configuration, who, line)).collect();
            for (number, ranges) in touched.iter().enumerate() {
                ranges.iter().for_each(|it| needs.visit(who, number, it));
            }
            needs.touched.push(touched);
        }
        needs
    }

    fn note_open(&mut self, who: usize, lines: &[Need]) {
        for (number, it) in lines.iter().enumerate() {
            let Some(board) = it.board.filter(|_| it.retries != Retries::Fixed) else {
                continue;
            };
            self.last_open[who][board] = Some(number);
            match it.retries {
                Retries::OneOrFour => self.last_mixed[who][board] = Some(number),
                _ => self.last_one_step[who][board] = Some(number),
            }
            if it.retries == Retries::OneOrFour && it.last == BUSY_TRY {
                self.last_busy[who][board] = Some(number);
            }
        }
    }

    fn visit(&mut self, who: usize, line: usize, range: &Touched) {
        for offset in range.first..range.end {
            let visitors = self.visitors.entry((range.board, offset)).or_default();
            if visitors.last().map(|it| it.who) != Some(who) {
                visitors.push(Visitor { who, last: line, last_writing: None });
            }
            let visitor = visitors.last_mut().expect("one was put there");
            visitor.last = line;
            if range.writes {
                visitor.last_writing = Some(line);
            }
        }
    }

    /// Whether another processor, from its current line on, may write these bytes; if they are written here, whether it
    /// may touch them.
    pub fn meets(&self, who: usize, range: &Touched, current_line: impl Fn(usize) -> usize) -> bool {
        let meets = |it: &Visitor| {
            let last = if range.writes { Some(it.last) } else { it.last_writing };
            it.who != who && last.is_some_and(|last| last >= current_line(it.who))
        };
        let mut offsets = range.first..range.end;
        offsets.any(|offset| self.visitors.get(&(range.board, offset)).is_some_and(|all| all.iter().any(meets)))
    }

    /// Whether some processor, from its current line on, may write a byte.
    pub fn may_be_written(&self, at: (usize, u64), current_line: impl Fn(usize) -> usize) -> bool {
        let writes = |it: &Visitor| it.last_writing.is_some_and(|last| last >= current_line(it.who));
        self.visitors.get(&at).is_some_and(|all| all.iter().any(writes))
    }

    pub fn touched_bytes(&self) -> impl Iterator<Item = &(usize, u64)> {
        self.visitors.keys()
    }

    /// The bytes that several processors touch and at least one writes.
    pub fn shared(&self) -> Vec<(usize, u64)> {
        let is_shared = |all: &Vec<Visitor>| all.len() > 1 && all.iter().any(|it| it.last_writing.is_some());
        let shared = self.visitors.iter().filter(|it| is_shared(it.1)).map(|it| *it.0);
        let mut shared: Vec<_> = shared.collect();
        shared.sort();
        shared
    }
}

fn later(lines: &[Need], boards: usize) -> Vec<Vec<Later>> {
    let mut later = Vec::new();
    let mut sums = vec![Later::default(); boards];
    for it in lines.iter().rev() {
        later.push(sums.clone());
        if let Some(board) = it.board {
            sums[board].least += it.least(0);
            sums[board].capacity += it.capacity(0);
        }
    }
    later.reverse();
    later
}

/// Whether a mailbox may be full before a put into it, that is, whether the other puts can fill it.
fn may_be_full(configuration: &Configuration, report: &Report, number: usize) -> bool {
    let is_put = |line: &Line, reply: &str| matches!(line, Line::Put(it, _) if *it == number) && reply == "put";
    let entries = configuration.boards.iter().zip(&report.replies);
    let lines = entries.flat_map(|(entry, replies)| entry.script.iter().zip(replies));
    let puts = lines.filter(|((_, line), reply)| is_put(line, reply)).count();
    puts > configuration.mailboxes[number - 1].slots as usize
}

fn need(configuration: &Configuration, report: &Report, who: usize, line: &Line, reply: &str) -> Need {
    let tries = configuration.tries;
    let (board, steps) = match steps(configuration, who, line).first() {
        Some(first) => (Some(first.0), steps(configuration, who, line).len() as u64),
        None => (None, 0),
    };
    let word = reply.split(' ').next().unwrap_or_default();
    let (failed, last, retries) = match (line, word) {
        (Line::Await(..), "met") | (Line::Lock(_), "taken") => (0, 1, Retries::OneStep),
        (Line::Await(..), "timeout") | (Line::Lock(_), "busy") => (tries - 1, 1, Retries::Fixed),
        (Line::Put(..) | Line::Take(_), "busy") => (tries - 1, BUSY_TRY, Retries::OneOrFour),
        (Line::Put(..) | Line::Take(_), "full" | "empty") => (tries - 1, VAIN_TASK, Retries::OneOrFour),
        (Line::Put(it, _), _) if !may_be_full(configuration, report, *it) => (0, WHOLE_TASK, Retries::OneStep),
        (Line::Put(..) | Line::Take(_), _) => (0, WHOLE_TASK, Retries::OneOrFour),
        _ => (0, steps, Retries::Fixed),
    };
    Need { board, failed, last, retries, most_failed: tries - 1 }
}

/// The commands of a line's first transfer or local access, with their boards, up to the first bus error.
pub fn steps(configuration: &Configuration, who: usize, line: &Line) -> Vec<(usize, Command)> {
    let lock;
    let asked: &Asked = match line {
        Line::Local(command) => return vec![(who, command.clone())],
        Line::Bus(asked) | Line::Await(asked, _) | Line::Lock(asked) | Line::Unlock(asked) => asked,
        Line::Put(number, _) | Line::Take(number) => {
            let mailbox = configuration.mailboxes[number - 1];
            lock = Request { am: mailbox.am, address: mailbox.address, length: 1, form: Form::Read }.plan();
            &lock
        }
    };
    match asked {
        Ok(plan) => data(configuration, plan),
        Err(_) => Vec::new(),
    }
}

fn data(configuration: &Configuration, plan: &Plan) -> Vec<(usize, Command)> {
    let Some((board, offset)) = boards::select(&configuration.ranges, plan) else {
        return Vec::new();
    };
    let mut data = Vec::new();
    for datum in 0..plan.data.len() {
        let command = boards::command(plan, offset, datum);
        let is_last = !answers(configuration, board, &command);
        data.push((board, command));
        if is_last {
            break;
        }
    }
    data
}

pub fn answers(configuration: &Configuration, board: usize, command: &Command) -> bool {
    let entry = &configuration.boards[board];
    Board::new(entry.range.size, entry.class).answers(command)
}

/// The bytes that a line may touch.
fn touched(configuration: &Configuration, who: usize, line: &Line) -> Vec<Touched> {
    let mut touched = Vec::new();
    for (board, command) in steps(configuration, who, line) {
        if !answers(configuration, board, &command) {
            continue;
        }
        let length = match line {
            Line::Put(number, _) | Line::Take(number) => configuration.mailboxes[number - 1].length(),
            _ => command.length as u64,
        };
        let writes = command.action != Action::Read || matches!(line, Line::Put(..) | Line::Take(_));
        touched.push(Touched { board, first: command.offset, end: command.offset + length, writes });
    }
    touched
}
