//! Runs the scripts of a configuration file, each on a thread of its own, and prints the report, as
//! `vme run` does: a `Mutex` for each board and one for the arbiter. It knows boards of one level
//! and lines `m 09 ADDRESS 4 add NUMBER`, `lm OFFSET 4 add NUMBER`, `await 09 ADDRESS BYTES` and
//! `br 0b ADDRESS LENGTH COUNT` alone; with the code 08, which is for blocks, the first is refused. A block locks its board for
//! each datum. `tries` may stand before the boards.
//!
//! usage: plain_run FILE

use std::fmt::Write as _;
use std::process::ExitCode;
use std::sync::Mutex;
use std::thread;

const SPINS: u32 = 6;

const HEX_DIGITS: &[u8; 16] = b"0123456789abcdef";

/// The number of attempts at a line where the file states none.
const TRIES: usize = 1_000;

struct Board {
    memory: Vec<u8>,
    made: Vec<u64>,
}

/// How a line reaches a board.
enum Way {
    Bus,
    Local,
    Refused,
}

/// What a line does at its place.
enum Access {
    Add(u32),
    Await(Vec<u8>),
    /// So many data of this length, one after another.
    Block { length: usize, count: usize },
}

struct Line {
    way: Way,
    address: usize,
    access: Access,
}

enum Reply {
    Old(u32),
    Read(Vec<u8>),
    Met,
    Timeout,
    Refused,
}

struct Place {
    slot: usize,
    base: usize,
    size: usize,
    script: Vec<Line>,
}

/// Who asks for the bus, and who has it.
struct Arbiter {
    asks: Vec<bool>,
    owner: Option<usize>,
}

impl Arbiter {
    fn grant(&mut self) {
        if self.owner.is_none() {
            self.owner = self.asks.iter().position(|asks| *asks);
        }
    }

    fn ask(&mut self, who: usize) {
        self.asks[who] = true;
        self.grant();
    }

    fn give_back(&mut self, who: usize) {
        self.asks[who] = false;
        self.owner = None;
        self.grant();
    }
}

fn number(text: &str) -> Option<usize> {
    match text.strip_prefix("0x") {
        Some(digits) => usize::from_str_radix(digits, 16).ok(),
        None => text.parse().ok(),
    }
}

fn line(text: &str) -> Option<Line> {
    let words: Vec<&str> = text.split(' ').collect();
    let (way, address, access) = match words.as_slice() {
        ["m", "09", address, "4", "add", added] => (Way::Bus, address, add_of(added)?),
        ["m", "08", address, "4", "add", added] => (Way::Refused, address, add_of(added)?),
        ["lm", offset, "4", "add", added] => (Way::Local, offset, add_of(added)?),
        ["br", "0b", address, length, count] => {
            (Way::Bus, address, Access::Block { length: number(length)?, count: number(count)? })
        }
        ["await", "09", address, bytes] => (Way::Bus, address, Access::Await(hex_bytes(bytes)?)),
        _ => return None,
    };
    let address = usize::from_str_radix(address, 16).ok()?;
    Some(Line { way, address, access })
}

fn add_of(number: &str) -> Option<Access> {
    Some(Access::Add(u32::from_str_radix(number, 16).ok()?))
}

fn hex_bytes(digits: &str) -> Option<Vec<u8>> {
    let starts = (0..digits.len()).step_by(2);
    starts.map(|start| u8::from_str_radix(digits.get(start..start + 2)?, 16).ok()).collect()
}

fn place(text: &str) -> Option<Place> {
    let (head, rest) = text.split_once("script = \"\"\"\n")?;
    let key = |name: &str| {
        let value = head.lines().find_map(|line| line.strip_prefix(name)?.strip_prefix(" = "))?;
        number(value)
    };
    let (script, _) = rest.split_once("\"\"\"")?;
    let asked = script.lines().filter(|text| !text.starts_with('#'));
    Some(Place {
        slot: key("slot")?,
        base: key("base")?,
        size: key("size")?,
        script: asked.map(line).collect::<Option<_>>()?,
    })
}

/// Waits until the bus is `who`'s.
fn take_bus(bus: &Mutex<Arbiter>, who: usize) {
    bus.lock().unwrap().ask(who);
    let mut turns = 0;
    while bus.lock().unwrap().owner != Some(who) {
        if turns < SPINS {
            (0..1 << turns).for_each(|_| std::hint::spin_loop());
            turns += 1;
        } else {
            thread::yield_now();
        }
    }
}

fn add(board: &Mutex<Board>, who: usize, offset: usize, added: u32) -> u32 {
    let mut board = board.lock().unwrap();
    let word = &mut board.memory[offset..offset + 4];
    let old = u32::from_be_bytes(word.try_into().unwrap());
    word.copy_from_slice(&old.wrapping_add(added).to_be_bytes());
    board.made[who] += 1;
    old
}

fn is_found(board: &Mutex<Board>, who: usize, offset: usize, wanted: &[u8]) -> bool {
    let mut board = board.lock().unwrap();
    board.made[who] += 1;
    board.memory[offset..offset + wanted.len()] == *wanted
}

fn read_block(board: &Mutex<Board>, who: usize, offset: usize, length: usize, count: usize) -> Vec<u8> {
    let mut bytes = Vec::with_capacity(length * count);
    for at in (offset..).step_by(length).take(count) {
        let mut board = board.lock().unwrap();
        bytes.extend_from_slice(&board.memory[at..at + length]);
        board.made[who] += 1;
    }
    bytes
}

/// What all threads share.
struct Shared<'a> {
    tries: usize,
    places: &'a [Place],
    boards: &'a [Mutex<Board>],
    bus: &'a Mutex<Arbiter>,
}

impl Shared<'_> {
    /// A transfer of `len` bytes in a tenure of the bus, or nothing where no board has them.
    fn over_bus<T>(&self, who: usize, address: usize, len: usize, does: impl Fn(&Mutex<Board>, usize) -> T) -> Option<T> {
        take_bus(self.bus, who);
        let target = self.places.iter().position(|it| it.base <= address && address + len <= it.base + it.size);
        let done = target.map(|target| does(&self.boards[target], address - self.places[target].base));
        self.bus.lock().unwrap().give_back(who);
        done
    }

    fn reply(&self, who: usize, line: &Line) -> Option<Reply> {
        match (&line.way, &line.access) {
            (Way::Refused, _) => Some(Reply::Refused),
            (Way::Local, Access::Add(added)) => Some(Reply::Old(add(&self.boards[who], who, line.address, *added))),
            (Way::Bus, Access::Add(added)) => {
                self.over_bus(who, line.address, 4, |board, offset| add(board, who, offset, *added)).map(Reply::Old)
            }
            (_, Access::Block { length, count }) => {
                let read = |board: &_, offset| read_block(board, who, offset, *length, *count);
                self.over_bus(who, line.address, length * count, read).map(Reply::Read)
            }
            (_, Access::Await(wanted)) => self.awaited(who, line.address, wanted),
        }
    }

    fn awaited(&self, who: usize, address: usize, wanted: &[u8]) -> Option<Reply> {
        for _ in 0..self.tries {
            if self.over_bus(who, address, wanted.len(), |board, offset| is_found(board, who, offset, wanted))? {
                return Some(Reply::Met);
            }
        }
        Some(Reply::Timeout)
    }

    fn work(&self, who: usize) -> Vec<Option<Reply>> {
        self.places[who].script.iter().map(|line| self.reply(who, line)).collect()
    }
}

/// Appends the two digits of a byte, without the formatting through `fmt`.
fn push_hex(text: &mut String, byte: u8) {
    for digit in [byte >> 4, byte & 15] {
        text.push(char::from(HEX_DIGITS[usize::from(digit)]));
    }
}

/// Whether a row of memory is zero, sixteen bytes at once.
fn is_zero(row: &[u8]) -> bool {
    match <&[u8; 16]>::try_from(row) {
        Ok(row) => *row == [0; 16],
        Err(_) => row.iter().all(|byte| *byte == 0),
    }
}

fn report(places: &[Place], boards: Vec<Mutex<Board>>, replies: &[Vec<Option<Reply>>]) -> String {
    let mut text = String::new();
    for (place, replies) in places.iter().zip(replies) {
        for (number, reply) in (1..).zip(replies) {
            let _ = match reply {
                Some(Reply::Read(bytes)) => {
                    let _ = write!(text, "{}:{number} read ", place.slot);
                    bytes.iter().for_each(|byte| push_hex(&mut text, *byte));
                    writeln!(text)
                }
                Some(Reply::Old(old)) => writeln!(text, "{}:{number} old {old:08x}", place.slot),
                Some(Reply::Met) => writeln!(text, "{}:{number} met", place.slot),
                Some(Reply::Timeout) => writeln!(text, "{}:{number} timeout", place.slot),
                Some(Reply::Refused) => writeln!(text, "{}:{number} refused K5", place.slot),
                None => writeln!(text, "{}:{number} berr 0", place.slot),
            };
        }
    }
    let boards: Vec<Board> = boards.into_iter().map(|board| board.into_inner().unwrap()).collect();
    for (place, board) in places.iter().zip(&boards) {
        let _ = write!(text, "board {} steps {} made", place.slot, board.made.iter().sum::<u64>());
        board.made.iter().for_each(|made| _ = write!(text, " {made}"));
        text.push('\n');
    }
    for (place, board) in places.iter().zip(&boards) {
        for (row, bytes) in board.memory.chunks(16).enumerate().filter(|(_, row)| !is_zero(row)) {
            let _ = write!(text, "mem {} {:08x} ", place.slot, 16 * row);
            bytes.iter().for_each(|byte| _ = write!(text, "{byte:02x}"));
            text.push('\n');
        }
    }
    text
}

fn main() -> ExitCode {
    let path = std::env::args().nth(1).expect("usage: plain_run FILE");
    let text = std::fs::read_to_string(path).expect("a file");
    let (head, tables) = text.split_once("[[board]]\n").expect("a board");
    let tries = head.lines().find_map(|line| number(line.strip_prefix("tries = ")?)).unwrap_or(TRIES);
    let tables = tables.split("[[board]]\n");
    let places: Vec<Place> = tables.map(place).collect::<Option<_>>().expect("lines that it knows");
    let count = places.len();
    let empty = |place: &Place| Mutex::new(Board { memory: vec![0; place.size], made: vec![0; count] });
    let boards: Vec<Mutex<Board>> = places.iter().map(empty).collect();
    let bus = Mutex::new(Arbiter { asks: vec![false; count], owner: None });
    let shared = Shared { tries, places: &places, boards: &boards, bus: &bus };
    let replies: Vec<Vec<Option<Reply>>> = thread::scope(|scope| {
        let shared = &shared;
        let threads: Vec<_> = (0..count).map(|who| scope.spawn(move || shared.work(who))).collect();
        threads.into_iter().map(|thread| thread.join().unwrap()).collect()
    });
    print!("{}", report(&places, boards, &replies));
    let all_good = replies.iter().flatten().all(|reply| matches!(reply, Some(Reply::Old(_) | Reply::Read(_) | Reply::Met)));
    ExitCode::from(u8::from(!all_good))
}
