//! `cycles`: each line of the input answered on one board, with its signals.

use crate::boards::{self, Board, Class, Range, Reply};
use crate::codes::Space;
use crate::exit::Exit;
use crate::lines::{self, Line, LineFault};
use crate::locations::{self, Location};
use crate::replies::{digits, is_good, LineReply};
use crate::requests::{Action, Plan};
use std::fmt::Write;

const SIZE: u32 = 4096;
const RANGE: Range = Range { space: Space::A32, base: 0, size: SIZE, supervisory: false };
const CLASS: Class = Class { width: 32, uat: true, blt: true, rmw: true };

/// The most bytes of the input.
pub const MOST_BYTES: usize = 1 << 20;

pub fn answer(input: &[u8]) -> Exit {
    if input.len() > MOST_BYTES {
        return Exit::fault("too long");
    }
    let mut board = Board::new(SIZE, CLASS);
    let mut output = String::new();
    let mut is_clean = true;
    for line in lines::split(input) {
        let reply = match parse(line) {
            Ok(None) => continue,
            Ok(Some(Line::Bus(Ok(plan)))) => {
                let replies = transfer(&mut board, &plan, &mut output);
                LineReply::Transfer(plan.outcome(&replies.iter().collect::<Vec<_>>())).text()
            }
            Ok(Some(Line::Bus(Err(refusal)))) => LineReply::Refused(refusal).text(),
            Ok(Some(_)) => unreachable!("the first words of these lines are unknown"),
            Err(fault) => format!("line refused S{}", fault as u8),
        };
        is_clean &= is_good(&reply);
        output.push_str(&reply);
        output.push('\n');
    }
    Exit::report(output, is_clean)
}

/// A line as a script has it, but with the first word one of six.
fn parse(line: &[u8]) -> Result<Option<Line>, LineFault> {
    match lines::words(line)?.first() {
        Some(word) if !lines::CYCLES.iter().any(|it| it.as_bytes() == *word) => Err(LineFault::UnknownWord),
        _ => lines::parse(line),
    }
}

/// Makes the transfer and writes its signal lines. Gives the replies of its data.
fn transfer(board: &mut Board, plan: &Plan, output: &mut String) -> Vec<Reply> {
    let selected = boards::select(&[RANGE], plan);
    let mut replies = Vec::new();
    for (datum, action) in plan.data.iter().enumerate() {
        let reply = match selected {
            Some((_, offset)) => board.step(&boards::command(plan, offset, datum)),
            None => Reply::Berr,
        };
        match action {
            Action::Read => signal_line(plan, datum, true, reply.bytes(), output),
            Action::Write(bytes) => signal_line(plan, datum, false, bytes, output),
            Action::Modify(function) => {
                signal_line(plan, datum, true, reply.bytes(), output);
                if let Reply::Bytes(old) = &reply {
                    signal_line(plan, datum, false, &function.value(old), output);
                }
            }
        }
        if reply == Reply::Berr {
            break;
        }
        replies.push(reply);
    }
    replies
}

/// Writes the signals of one datum whose lanes carry some bytes, or nothing.
fn signal_line(plan: &Plan, datum: usize, is_read: bool, bytes: &[u8], output: &mut String) {
    let first = location(plan, 0);
    let own = location(plan, datum);
    let written = writeln!(
        output,
        "am={:02x} a={:08x} ds1={} ds0={} a01={} lword={} write={} data={}",
        plan.code.code,
        plan.address & !3,
        own.ds1 as u8,
        own.ds0 as u8,
        first.a01 as u8,
        first.lword as u8,
        u8::from(is_read),
        lanes(plan, &own, bytes),
    );
    written.expect("a string takes all that is written");
}

fn location(plan: &Plan, datum: usize) -> Location {
    if plan.code.is_wide() {
        return locations::wide();
    }
    let address = u64::from(plan.address) + (datum * plan.length) as u64;
    locations::look_up(address, plan.length).expect("each datum of a lawful request has a location")
}

fn lanes(plan: &Plan, own: &Location, bytes: &[u8]) -> String {
    if plan.code.is_wide() {
        return if bytes.is_empty() { "-".repeat(16) } else { digits(bytes) };
    }
    let mut lanes = ["--"; 4].map(String::from);
    for (lane, byte) in own.lanes.iter().zip(bytes) {
        lanes[*lane] = digits(&[*byte]);
    }
    lanes.concat()
}
