//! Lines drawn at random, most of them lawful requests on boards that are there.

use crate::codes::Space;
use crate::random::Random;

/// A board that lines are aimed at.
#[derive(Clone, Debug)]
pub struct Aim {
    pub space: Space,
    pub base: u32,
    pub size: u32,
    pub is_supervisory: bool,
}

pub struct Aims {
    pub boards: Vec<Aim>,
    /// The size of the board whose local port the line uses.
    pub own_size: u32,
    pub mailboxes: usize,
    /// Whether all lines keep to a few bytes, so that processors meet there.
    pub are_close: bool,
}

impl Aims {
    /// The board of `cycles`.
    pub fn one_board() -> Aims {
        let board = Aim { space: Space::A32, base: 0, size: 4096, is_supervisory: false };
        Aims { boards: vec![board], own_size: 4096, mailboxes: 0, are_close: false }
    }
}

/// A line with one of some commands, now and then none at all or a damaged one.
pub fn any(random: &mut Random, aims: &Aims, commands: &[&str]) -> Vec<u8> {
    match random.below(40) {
        0..=3 => bad(random, aims, commands),
        4 => {
            let line = lawful(random, aims, commands);
            respelled(random, &line)
        }
        _ => lawful(random, aims, commands).into_bytes(),
    }
}

/// A line that is refused, or that asks for nothing.
pub fn bad(random: &mut Random, aims: &Aims, commands: &[&str]) -> Vec<u8> {
    if random.one_in(5) {
        return no_request(random);
    }
    let line = lawful(random, aims, commands);
    damaged(random, &line)
}

fn no_request(random: &mut Random) -> Vec<u8> {
    let length = random.pick(&[0, 1, 79, 80, 81, 81, 82, 200]);
    let byte = random.pick(b" #");
    match random.below(4) {
        0 => Vec::new(),
        1 => b"# r 0d 00000000 1".to_vec(),
        _ => vec![byte; length],
    }
}

/// The line with more spaces, or with capital digits.
fn respelled(random: &mut Random, line: &str) -> Vec<u8> {
    match random.below(3) {
        0 => format!("  {}  ", line.replace(' ', "   ")).into_bytes(),
        1 => line.replace('a', "A").replace('f', "F").into_bytes(),
        _ => format!("{line}{}", " ".repeat(random.below(60))).into_bytes(),
    }
}

/// What stands in a damaged line for a word, or beside one.
const WORDS: [&str; 27] = [
    "r",
    "w",
    "br",
    "bf",
    "m",
    "lr",
    "await",
    "lock",
    "put",
    "take",
    "x",
    "set",
    "xchg",
    "add",
    "cas",
    "0",
    "5",
    "9",
    "0g",
    "100",
    "0000",
    "00000",
    "00000000",
    "0000000g",
    "123",
    "0102030405060708",
    "010203040506070809",
];

fn damaged(random: &mut Random, line: &str) -> Vec<u8> {
    let mut words: Vec<&str> = line.split(' ').collect();
    let at = random.below(words.len());
    match random.below(5) {
        0 => {
            words.remove(at);
        }
        1 => words.insert(at, random.pick(&WORDS)),
        2 | 3 => words[at] = random.pick(&WORDS),
        _ => {
            let mut bytes = line.as_bytes().to_vec();
            let place = random.below(bytes.len());
            bytes[place] = random.pick(b"0gG#x\t\r\x00\xff -");
            return bytes;
        }
    }
    words.join(" ").into_bytes()
}

/// A well-formed line.
pub fn lawful(random: &mut Random, aims: &Aims, commands: &[&str]) -> String {
    let command = random.pick(commands);
    let aim = random.pick(&aims.boards);
    match command {
        "r" => {
            let (length, multiple) = single_length(random);
            format!("r {} {length}", place(random, aims, &aim, Use::Single, multiple))
        }
        "w" => {
            let (length, multiple) = single_length(random);
            format!("w {} {}", place(random, aims, &aim, Use::Single, multiple), bytes(random, length))
        }
        "br" | "bf" | "bw" => block(random, aims, &aim, command),
        "m" => {
            let length = block_length(random);
            let place = place(random, aims, &aim, Use::Modify, length);
            format!("m {place} {length} {}", function(random, length))
        }
        "lr" => format!("lr {} {}", offset(random, aims), random.pick(&[1, 2, 4])),
        "lw" => {
            let length = random.pick(&[1, 2, 4]);
            format!("lw {} {}", offset(random, aims), bytes(random, length))
        }
        "lm" => {
            let length = random.pick(&[1, 2, 4]);
            format!("lm {} {length} {}", offset(random, aims), function(random, length))
        }
        "await" => {
            let (length, multiple) = if random.one_in(4) { single_length(random) } else { (1, 1) };
            let bytes = random.pick(&["00", "01", "80", "ff"]).repeat(length);
            format!("await {} {bytes}", place(random, aims, &aim, Use::Single, multiple))
        }
        "lock" | "unlock" => format!("{command} {}", place(random, aims, &aim, Use::Modify, 1)),
        "put" => format!("put {} {}", mailbox(random, aims), bytes(random, 4)),
        _ => format!("take {}", mailbox(random, aims)),
    }
}

fn mailbox(random: &mut Random, aims: &Aims) -> usize {
    1 + random.below(aims.mailboxes.max(1))
}

/// A length, and of what its addresses are mostly multiples.
fn single_length(random: &mut Random) -> (usize, usize) {
    match random.below(25) {
        0 => (random.from_to(5, 8), 1),
        1..=10 => (random.from_to(1, 4), 1),
        _ => random.pick(&[(1, 1), (2, 2), (4, 4)]),
    }
}

fn block_length(random: &mut Random) -> usize {
    if random.one_in(25) {
        random.from_to(1, 8)
    } else {
        random.pick(&[1, 2, 4])
    }
}

fn block(random: &mut Random, aims: &Aims, aim: &Aim, command: &str) -> String {
    let has_blocks = |it: &&Aim| it.space != Space::A16;
    let aim = Some(aim).filter(has_blocks).or(aims.boards.iter().find(has_blocks)).unwrap_or(aim);
    let is_wide = random.one_in(4);
    let (to_what, length) = if is_wide { (Use::WideBlock, 8) } else { (Use::Block, block_length(random)) };
    let place = place(random, aims, aim, to_what, length);
    let count = match random.below(12) {
        0 => random.pick(&[0, 255, 256, 257, 9999]),
        1 => 256 / length,
        _ => random.from_to(1, 4),
    };
    match command {
        "br" => format!("br {place} {length} {count}"),
        "bf" => format!("bf {place} {length} {count} {}", bytes(random, length)),
        _ => {
            let uneven = if random.one_in(20) { 1 } else { 0 };
            let count = random.from_to(1, 28 / length);
            format!("bw {place} {length} {}", bytes(random, count * length + uneven))
        }
    }
}

/// What a code has to allow.
#[derive(Clone, Copy, PartialEq)]
enum Use {
    Single,
    Modify,
    Block,
    WideBlock,
}

/// A code and an address, mostly of the board aimed at.
fn place(random: &mut Random, aims: &Aims, aim: &Aim, to_what: Use, multiple: usize) -> String {
    let code = match random.below(40) {
        0 => random.below(0x44) as u8,
        1 => random.pick(&[0x0a, 0x0e, 0x3a, 0x3e]),
        _ => code(random, aim, to_what),
    };
    let offset = if aims.are_close { close(random, aim.size) } else { anywhere(random, aim.size) };
    let mut address = aim.base.wrapping_add(offset);
    if !random.one_in(20) {
        address -= address % multiple as u32;
    }
    if random.one_in(60) {
        address = random.pick(&[0, 0xfffe, 0xffff, 0x10000, 0x00ff_ffff, 0x0100_0000, u32::MAX, u32::MAX - 3]);
    }
    format!("{code:02x} {address:08x}")
}

fn code(random: &mut Random, aim: &Aim, to_what: Use) -> u8 {
    let codes: &[u8] = match (aim.space, to_what) {
        (Space::A16, _) => &[0x29],
        (Space::A24, Use::Single) => &[0x39, 0x39, 0x3a],
        (Space::A24, Use::Modify) => &[0x39],
        (Space::A24, Use::Block) => &[0x3b],
        (Space::A24, Use::WideBlock) => &[0x38],
        (Space::A32, Use::Single) => &[0x09, 0x09, 0x0a],
        (Space::A32, Use::Modify) => &[0x09],
        (Space::A32, Use::Block) => &[0x0b],
        (Space::A32, Use::WideBlock) => &[0x08],
    };
    // Bit 2 of a code says that it is supervisory.
    let is_supervisory = aim.is_supervisory != random.one_in(12);
    random.pick(codes) | if is_supervisory { 4 } else { 0 }
}

/// One of a few offsets.
fn close(random: &mut Random, size: u32) -> u32 {
    match random.below(12) {
        0 => size.saturating_sub(4) + random.below(6) as u32,
        _ => random.pick(&[0, 0, 1, 2, 3, 4, 4, 5]),
    }
}

fn anywhere(random: &mut Random, size: u32) -> u32 {
    match random.below(8) {
        0..=3 => random.below(16) as u32,
        4 => size.wrapping_sub(16).wrapping_add(random.below(24) as u32),
        5 => (random.from_to(1, 9) as u32 * 256).wrapping_sub(8).wrapping_add(random.below(16) as u32),
        _ => random.below(size as usize) as u32,
    }
}

/// An offset of the own board.
fn offset(random: &mut Random, aims: &Aims) -> String {
    let size = aims.own_size;
    let offset = if aims.are_close { close(random, size) } else { anywhere(random, size) };
    format!("{offset:08x}")
}

/// Bytes, mostly of a few values, so that an `await` for them may be met.
fn bytes(random: &mut Random, count: usize) -> String {
    let few = !random.one_in(3);
    let drawn = random.bytes(count);
    let byte = |it: &u8| if few { [0x00, 0x01, 0x80, 0xff][usize::from(*it % 4)] } else { *it };
    drawn.iter().map(|it| format!("{:02x}", byte(it))).collect()
}

fn function(random: &mut Random, length: usize) -> String {
    match random.below(5) {
        0 => "set".into(),
        1 => format!("xchg {}", bytes(random, length)),
        2 => format!("cas {} {}", "00".repeat(length), bytes(random, length)),
        3 => format!("cas {} {}", bytes(random, length), bytes(random, length)),
        _ => format!("add {}", bytes(random, length)),
    }
}
