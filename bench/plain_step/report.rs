//! Prints the report.

use crate::memory::Board;
use crate::run::{Processor, Reply, World};
use std::io::{self, Write};

const ROW: usize = 16;

/// The digits of sixteen bytes at once, by a table and not through `fmt`.
fn hex(output: &mut impl Write, bytes: &[u8]) -> io::Result<()> {
    const DIGITS: &[u8; 16] = b"0123456789abcdef";
    let mut digits = [0; 2 * ROW];
    for row in bytes.chunks(ROW) {
        for (pair, byte) in digits.chunks_exact_mut(2).zip(row) {
            pair[0] = DIGITS[usize::from(byte >> 4)];
            pair[1] = DIGITS[usize::from(byte & 15)];
        }
        output.write_all(&digits[..2 * row.len()])?;
    }
    Ok(())
}

fn with_bytes(output: &mut impl Write, word: &str, bytes: &[u8]) -> io::Result<()> {
    output.write_all(word.as_bytes())?;
    hex(output, bytes)
}

fn reply(output: &mut impl Write, reply: &Reply) -> io::Result<()> {
    match reply {
        Reply::Read(bytes) => with_bytes(output, "read ", bytes),
        Reply::Done => output.write_all(b"done"),
        Reply::Old(bytes) => with_bytes(output, "old ", bytes.as_slice()),
        Reply::BusError { count, bytes } if bytes.is_empty() => write!(output, "berr {count}"),
        Reply::BusError { count, bytes } => with_bytes(output, &format!("berr {count} "), bytes),
        Reply::Refused(digit) => write!(output, "refused K{digit}"),
        Reply::Met => output.write_all(b"met"),
        Reply::Timeout => output.write_all(b"timeout"),
        Reply::Unfinished => output.write_all(b"unfinished"),
    }
}

fn counts(output: &mut impl Write, slot: u16, board: &Board) -> io::Result<()> {
    write!(output, "board {slot} steps {} made", board.made.iter().sum::<u64>())?;
    board.made.iter().try_for_each(|made| write!(output, " {made}"))?;
    output.write_all(b"\n")
}

/// Whether a row of memory is zero, sixteen bytes at once.
fn is_zero(row: &[u8]) -> bool {
    match <&[u8; ROW]>::try_from(row) {
        Ok(row) => *row == [0; ROW],
        Err(_) => row.iter().all(|byte| *byte == 0),
    }
}

fn memory(output: &mut impl Write, slot: u16, board: &Board) -> io::Result<()> {
    for (at, row) in board.bytes.chunks(ROW).enumerate() {
        if !is_zero(row) {
            write!(output, "mem {slot} {:08x} ", at * ROW)?;
            hex(output, row)?;
            output.write_all(b"\n")?;
        }
    }
    Ok(())
}

fn boards(world: &World) -> impl Iterator<Item = (u16, &Board)> {
    let slots = world.processors.iter().map(|processor: &Processor| processor.slot);
    slots.zip(&world.machine.boards)
}

pub fn write(output: &mut impl Write, world: &World) -> io::Result<()> {
    for processor in &world.processors {
        for (number, text) in &processor.replies {
            write!(output, "{}:{number} ", processor.slot)?;
            reply(output, text)?;
            output.write_all(b"\n")?;
        }
    }
    boards(world).try_for_each(|(slot, board)| counts(output, slot, board))?;
    boards(world).try_for_each(|(slot, board)| memory(output, slot, board))
}
