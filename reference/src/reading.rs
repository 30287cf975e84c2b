//! From the text of a file to a configuration, with the refusals in their order.

use crate::boards::{self, Class, Range};
use crate::codes::{self, Access, Space};
use crate::configuration::{BoardEntry, Configuration, Fault, Mailbox, Refused};
use crate::keys;
use crate::lines::{self, Line, LineFault};
use crate::requests::{Form, Plan, Request};
use crate::toml;

const MOST_BOARDS: usize = 21;
const MOST_LINES: usize = 1000;
const MOST_MAILBOXES: usize = 16;
const MOST_TURNS: u64 = 1_000_000;
const MILLION: u32 = 1_000_000;

pub fn configuration(text: &[u8]) -> Result<Configuration, Refused> {
    let file = keys::file(&toml::read(text)?)?;
    match file.boards.len() {
        0 => return Err(Fault::NoBoard.into()),
        count if count > MOST_BOARDS => return Err(Fault::TooMany.into()),
        _ => {}
    }
    let mut boards = Vec::new();
    let mut slot_before = 0;
    for it in &file.boards {
        boards.push(board(it, slot_before)?);
        slot_before = it.slot;
    }
    let ranges: Vec<Range> = boards.iter().map(|it| it.range).collect();
    if overlap(&ranges) {
        return Err(Fault::Overlap.into());
    }
    let is_rotating = match file.arbiter.as_str() {
        "priority" => false,
        "rotating" => true,
        _ => return Err(Fault::BadWord.into()),
    };
    let schedule = schedule(&file, &boards)?;
    let mailboxes = mailboxes(&file.mailboxes, &boards, &ranges)?;
    let (tries, rounds) = (u64::from(file.tries), file.rounds);
    let mut whole = Configuration { is_rotating, tries, schedule, rounds, boards, ranges, mailboxes };
    for (at, it) in file.boards.iter().enumerate() {
        whole.boards[at].script = script(it.script.as_bytes(), at, &whole)
            .map_err(|(line, fault)| Refused::Script { slot: it.slot, line, fault })?;
    }
    Ok(whole)
}

fn board(it: &keys::Board, slot_before: u32) -> Result<BoardEntry, Fault> {
    if !(1..=MOST_BOARDS as u32).contains(&it.slot) || it.slot <= slot_before {
        return Err(Fault::BadSlot);
    }
    if it.level > 3 {
        return Err(Fault::BadLevel);
    }
    let space = match it.space.as_str() {
        "a16" => Space::A16,
        "a24" => Space::A24,
        "a32" => Space::A32,
        _ => return Err(Fault::BadWord),
    };
    if !matches!(it.width, 8 | 16 | 32) || it.uat && it.width < 32 {
        return Err(Fault::BadWord);
    }
    if !(4..=1 << 20).contains(&it.size) || it.size % 4 != 0 {
        return Err(Fault::BadSize);
    }
    if it.base % 4 != 0 {
        return Err(Fault::Misaligned);
    }
    let range = Range { space, base: it.base, size: it.size, supervisory: it.supervisory };
    if range.end() > space.addresses() {
        return Err(Fault::OutsideSpace);
    }
    let class = Class { width: it.width, uat: it.uat, blt: it.blt, rmw: it.rmw };
    Ok(BoardEntry { slot: it.slot, level: it.level, range, class, script: Vec::new() })
}

fn overlap(ranges: &[Range]) -> bool {
    let share = |one: &Range, other: &Range| {
        one.space == other.space && u64::from(one.base) < other.end() && u64::from(other.base) < one.end()
    };
    ranges.iter().enumerate().any(|(at, one)| ranges[..at].iter().any(|other| share(one, other)))
}

/// The schedule with the indices of the boards, where `tries`, `rounds` and the turns are in their ranges.
fn schedule(file: &keys::File, boards: &[BoardEntry]) -> Result<Vec<(usize, u32)>, Fault> {
    let turns: u64 = file.schedule.iter().map(|it| u64::from(it.1)).sum();
    if !(1..=MILLION).contains(&file.tries) || file.rounds > MILLION || turns > MOST_TURNS {
        return Err(Fault::BadSchedule);
    }
    let index = |slot| boards.iter().position(|it| it.slot == slot);
    file.schedule.iter().map(|it| Some((index(it.0)?, it.1))).collect::<Option<_>>().ok_or(Fault::BadSchedule)
}

fn mailboxes(all: &[keys::Mailbox], boards: &[BoardEntry], ranges: &[Range]) -> Result<Vec<Mailbox>, Fault> {
    if all.len() > MOST_MAILBOXES {
        return Err(Fault::BadMailbox);
    }
    let mut placed = Vec::new();
    let mut found = Vec::new();
    for it in all {
        let (mailbox, place) = mailbox(it, boards, ranges).ok_or(Fault::BadMailbox)?;
        if placed.iter().any(|earlier| share(earlier, &place)) {
            return Err(Fault::BadMailbox);
        }
        placed.push(place);
        found.push(mailbox);
    }
    Ok(found)
}

/// Bytes of a board, from one offset to another.
type Bytes = (usize, u64, u64);

fn share(one: &Bytes, other: &Bytes) -> bool {
    one.0 == other.0 && one.1 < other.2 && other.1 < one.2
}

/// A mailbox with its bytes, if it lies on a board as it has to.
fn mailbox(it: &keys::Mailbox, boards: &[BoardEntry], ranges: &[Range]) -> Option<(Mailbox, Bytes)> {
    let am = u8::try_from(it.am).ok()?;
    let code = codes::look_up(am).ok().filter(|it| matches!(it.access, Access::Data | Access::Short))?;
    if it.addr % 4 != 0 || !(1..=64).contains(&it.slots) {
        return None;
    }
    let mailbox = Mailbox { am, address: it.addr, slots: it.slots };
    let first = u64::from(it.addr);
    let board = ranges.iter().position(|range| range.admits(code) && range.holds(first))?;
    let class = boards[board].class;
    if first + mailbox.length() > ranges[board].end() || class.width != 32 || !class.rmw {
        return None;
    }
    let offset = first - u64::from(ranges[board].base);
    Some((mailbox, (board, offset, offset + mailbox.length())))
}

/// The lines of a script that ask for something, with their numbers; or the number of the first faulty line.
fn script(text: &[u8], board: usize, whole: &Configuration) -> Result<Vec<(usize, Line)>, (usize, LineFault)> {
    let lines = lines::split(text);
    if lines.len() > MOST_LINES {
        return Err((MOST_LINES + 1, LineFault::TooManyLines));
    }
    let mut script = Vec::new();
    for (number, line) in (1..).zip(lines) {
        match lines::parse(line).and_then(|it| declared(it, board, whole)) {
            Ok(Some(line)) => script.push((number, line)),
            Ok(None) => {}
            Err(fault) => return Err((number, fault)),
        }
    }
    Ok(script)
}

/// The line, if each mailbox that it names is declared and no other line names a byte of a mailbox.
fn declared(line: Option<Line>, board: usize, whole: &Configuration) -> Result<Option<Line>, LineFault> {
    let named = match &line {
        None => None,
        Some(Line::Put(number, _) | Line::Take(number)) => {
            let is_declared = (1..=whole.mailboxes.len()).contains(number);
            return if is_declared { Ok(line) } else { Err(LineFault::BadNumber) };
        }
        Some(Line::Local(command)) => Some((board, command.offset, command.offset + command.length as u64)),
        Some(Line::Bus(asked) | Line::Await(asked, _) | Line::Lock(asked) | Line::Unlock(asked)) => {
            asked.as_ref().ok().and_then(|it| whole.named_bytes(it))
        }
    };
    let mailboxes = whole.mailboxes.iter().filter_map(|it| whole.mailbox_bytes(it));
    match named {
        Some(named) if mailboxes.into_iter().any(|it| share(&it, &named)) => Err(LineFault::MailboxBytes),
        _ => Ok(line),
    }
}

impl Configuration {
    /// The bytes that a lawful request names on the board that it selects.
    fn named_bytes(&self, plan: &Plan) -> Option<Bytes> {
        let (board, offset) = boards::select(&self.ranges, plan)?;
        Some((board, offset, offset + (plan.data.len() * plan.length) as u64))
    }

    fn mailbox_bytes(&self, mailbox: &Mailbox) -> Option<Bytes> {
        let lock = Request { am: mailbox.am, address: mailbox.address, length: 1, form: Form::Read };
        let (board, offset, _) = self.named_bytes(&lock.plan().ok()?)?;
        Some((board, offset, offset + mailbox.length()))
    }
}
