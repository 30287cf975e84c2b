//! Reads the lines of scripts, and plans what they ask of the bus.

use crate::memory::{Bytes, Function, Space};

const LINE_LIMIT: usize = 80;
const BLOCK_UNIT: u64 = 256;
const WIDE_UNIT: u64 = 2048;
/// The words of the longest line.
const MOST_WORDS: usize = 7;

pub enum Line {
    Bus(Transfer),
    Local(Local),
    /// The digit after the K.
    Refused(u8),
}

#[derive(Clone, Copy, PartialEq)]
pub enum Kind {
    Single,
    Block,
    Modify,
}

pub enum Access {
    Read,
    /// Reads again and again until the bytes are these.
    Await(Bytes),
    /// All bytes, one datum after another.
    Write(Vec<u8>),
    /// One datum again and again.
    Fill(Bytes),
    Modify(Function),
}

/// A lawful request: `count` data of `length` bytes each.
pub struct Transfer {
    pub space: Space,
    pub supervisory: bool,
    pub address: u32,
    pub kind: Kind,
    pub length: usize,
    pub count: usize,
    pub access: Access,
}

pub struct Local {
    pub offset: u32,
    pub length: usize,
    pub access: LocalAccess,
}

pub enum LocalAccess {
    Read,
    Write(Bytes),
    Modify(Function),
}

/// The digit after the S.
type Fault = u8;

const UNKNOWN_WORD: Fault = 2;
const WORD_COUNT: Fault = 3;
const BAD_CODE: Fault = 4;
const BAD_ADDRESS: Fault = 5;
const BAD_NUMBER: Fault = 6;
const BAD_BYTES: Fault = 7;

fn hex_digit(byte: u8) -> Option<u8> {
    char::from(byte).to_digit(16).map(|digit| digit as u8)
}

fn hex_number(word: &[u8], digits: usize, fault: Fault) -> Result<u32, Fault> {
    if word.len() != digits {
        return Err(fault);
    }
    word.iter().try_fold(0, |number, &byte| Ok(number << 4 | u32::from(hex_digit(byte).ok_or(fault)?)))
}

fn hex_byte(pair: &[u8]) -> Result<u8, Fault> {
    let byte = |pair: &[u8]| Some(hex_digit(pair[0])? << 4 | hex_digit(pair[1])?);
    byte(pair).ok_or(BAD_BYTES)
}

fn hex_bytes(word: &[u8]) -> Result<Vec<u8>, Fault> {
    if word.is_empty() || word.len() % 2 != 0 {
        return Err(BAD_BYTES);
    }
    word.chunks_exact(2).map(hex_byte).collect()
}

fn datum(word: &[u8], fits: impl Fn(usize) -> bool) -> Result<Bytes, Fault> {
    let length = word.len() / 2;
    let mut bytes = [0; 8];
    if !(1..=bytes.len()).contains(&length) || word.len() % 2 != 0 || !fits(length) {
        return Err(BAD_BYTES);
    }
    for (byte, pair) in bytes.iter_mut().zip(word.chunks_exact(2)) {
        *byte = hex_byte(pair)?;
    }
    Ok(Bytes::new(&bytes[..length]))
}

fn length(word: &[u8], lengths: &[usize]) -> Result<usize, Fault> {
    match word {
        [digit @ b'1'..=b'8'] if lengths.contains(&usize::from(digit - b'0')) => {
            Ok(usize::from(digit - b'0'))
        }
        _ => Err(BAD_NUMBER),
    }
}

fn count(word: &[u8]) -> Result<usize, Fault> {
    if word.len() > 4 || !word.iter().all(u8::is_ascii_digit) {
        return Err(BAD_NUMBER);
    }
    Ok(word.iter().fold(0, |number, digit| number * 10 + usize::from(digit - b'0')))
}

const ANY_LENGTH: &[usize] = &[1, 2, 3, 4, 5, 6, 7, 8];
const LOCAL_LENGTH: &[usize] = &[1, 2, 4];

/// The words of FUNC, and where N stands in the line.
fn function(words: &[&[u8]], at: usize) -> Result<usize, Fault> {
    match words.get(at) {
        None => Err(WORD_COUNT),
        Some(&b"set") => Ok(0),
        Some(&b"xchg" | &b"add") => Ok(1),
        Some(&b"cas") => Ok(2),
        Some(_) => Err(UNKNOWN_WORD),
    }
}

fn read_function(words: &[&[u8]], length: usize) -> Result<Function, Fault> {
    let datum = |word| datum(word, |bytes| bytes == length);
    Ok(match words {
        [b"xchg", bytes] => Function::Exchange(datum(bytes)?),
        [b"add", bytes] => Function::Add(datum(bytes)?),
        [_, expect, put] => Function::Compare { expect: datum(expect)?, put: datum(put)? },
        _ => Function::Set,
    })
}

/// How many words a line of this first word has.
fn word_count(words: &[&[u8]]) -> Result<usize, Fault> {
    match words[0] {
        b"lr" | b"lw" => Ok(3),
        b"r" | b"w" | b"await" => Ok(4),
        b"br" | b"bw" => Ok(5),
        b"bf" => Ok(6),
        b"m" => Ok(5 + function(words, 4)?),
        b"lm" => Ok(4 + function(words, 3)?),
        _ => Err(UNKNOWN_WORD),
    }
}

fn local(words: &[&[u8]]) -> Result<Local, Fault> {
    let offset = hex_number(words[1], 8, BAD_ADDRESS)?;
    if words[0] == b"lw" {
        let bytes = datum(words[2], |bytes| LOCAL_LENGTH.contains(&bytes))?;
        return Ok(Local { offset, length: bytes.as_slice().len(), access: LocalAccess::Write(bytes) });
    }
    let length = length(words[2], LOCAL_LENGTH)?;
    let access = match words[0] {
        b"lr" => LocalAccess::Read,
        _ => LocalAccess::Modify(read_function(&words[3..], length)?),
    };
    Ok(Local { offset, length, access })
}

/// The kind of a request, the length and the number of its data, and what is done with them.
fn data(words: &[&[u8]]) -> Result<(Kind, usize, usize, Access), Fault> {
    if let b"w" | b"await" = words[0] {
        let bytes = datum(words[3], |_| true)?;
        let access = if words[0] == b"w" { Access::Fill } else { Access::Await };
        return Ok((Kind::Single, bytes.as_slice().len(), 1, access(bytes)));
    }
    let length = length(words[3], ANY_LENGTH)?;
    let (kind, count, access) = match words[0] {
        b"r" => (Kind::Single, 1, Access::Read),
        b"br" => (Kind::Block, count(words[4])?, Access::Read),
        b"bw" => {
            let bytes = hex_bytes(words[4])?;
            let is_whole = bytes.len() % length == 0;
            let count = if is_whole { bytes.len() / length } else { 0 };
            (Kind::Block, count, Access::Write(bytes))
        }
        b"bf" => {
            let count = count(words[4])?;
            let bytes = datum(words[5], |bytes| bytes == length)?;
            (Kind::Block, count, Access::Fill(bytes))
        }
        _ => (Kind::Modify, 1, Access::Modify(read_function(&words[4..], length)?)),
    };
    Ok((kind, length, count, access))
}

fn bus(words: &[&[u8]]) -> Result<Line, Fault> {
    let code = hex_number(words[1], 2, BAD_CODE)? as u8;
    let address = hex_number(words[2], 8, BAD_ADDRESS)?;
    let (kind, length, count, access) = data(words)?;
    Ok(match plan(code, address, kind, length, count, access) {
        Ok(transfer) => Line::Bus(transfer),
        Err(digit) => Line::Refused(digit),
    })
}

/// `Ok(None)` is a line that asks for nothing.
fn parse(line: &[u8]) -> Result<Option<Line>, Fault> {
    if line.len() > LINE_LIMIT {
        return Err(1);
    }
    if line.first() == Some(&b'#') {
        return Ok(None);
    }
    let mut array: [&[u8]; MOST_WORDS + 1] = [b""; MOST_WORDS + 1];
    let found = line.split(|&byte| byte == b' ').filter(|word| !word.is_empty());
    let count = array.iter_mut().zip(found).map(|(place, word)| *place = word).count();
    let words = &array[..count];
    if words.is_empty() {
        return Ok(None);
    }
    if words.len() != word_count(words)? {
        return Err(WORD_COUNT);
    }
    match words[0] {
        b"lr" | b"lw" | b"lm" => local(words).map(|local| Some(Line::Local(local))),
        _ => bus(words).map(Some),
    }
}

/// The lines that ask for something, each with its number; or the first that can't be read.
pub fn script(text: &[u8]) -> Result<Vec<(u16, Line)>, (usize, String)> {
    let mut lines = Vec::new();
    for (at, line) in text.split_inclusive(|&byte| byte == b'\n').enumerate() {
        let line = match line.strip_suffix(b"\n") {
            Some(line) => line.strip_suffix(b"\r").unwrap_or(line),
            None => line,
        };
        match parse(line) {
            Ok(None) => {}
            Ok(Some(line)) => lines.push((at as u16 + 1, line)),
            Err(digit) => return Err((at + 1, format!("S{digit}"))),
        }
    }
    Ok(lines)
}

/// What a code is for.
#[derive(PartialEq)]
enum Use {
    Data,
    Program,
    Block,
    WideBlock,
}

fn modifier(code: u8) -> Result<(Space, Use), u8> {
    let purpose = match code {
        0x29 | 0x2d => return Ok((Space::A16, Use::Data)),
        0x40.. => return Err(9),
        0x10..=0x1f => return Err(2),
        _ => match code & 3 {
            1 => Use::Data,
            2 => Use::Program,
            3 => Use::Block,
            _ => Use::WideBlock,
        },
    };
    match code >> 3 {
        1 => Ok((Space::A32, purpose)),
        7 => Ok((Space::A24, purpose)),
        _ => Err(1),
    }
}

/// Whether single cycles reach such bytes.
pub fn has_location(address: u32, length: usize) -> bool {
    match length {
        1 => true,
        2 => address % 4 != 3,
        3 => address % 4 < 2,
        4 | 8 => address % 4 == 0,
        _ => false,
    }
}

fn plan(
    code: u8,
    address: u32,
    kind: Kind,
    length: usize,
    count: usize,
    access: Access,
) -> Result<Transfer, u8> {
    let (space, purpose) = modifier(code)?;
    let is_wide = purpose == Use::WideBlock;
    if (is_wide || purpose == Use::Block) != (kind == Kind::Block) {
        return Err(5);
    }
    if purpose == Use::Program && kind == Kind::Modify {
        return Err(7);
    }
    let lengths: &[usize] = match kind {
        Kind::Single => &[1, 2, 3, 4],
        Kind::Block if is_wide => &[8],
        _ => LOCAL_LENGTH,
    };
    if !lengths.contains(&length) || !(1..=256).contains(&count) {
        return Err(8);
    }
    let end = u64::from(address) + (length * count) as u64;
    if end > space.addresses() {
        return Err(4);
    }
    if !has_location(address, length) || kind != Kind::Single && address as usize % length != 0 {
        return Err(3);
    }
    let unit = if is_wide { WIDE_UNIT } else { BLOCK_UNIT };
    if u64::from(address) / unit != (end - 1) / unit {
        return Err(6);
    }
    let supervisory = code & 4 != 0;
    Ok(Transfer { space, supervisory, address, kind, length, count, access })
}
