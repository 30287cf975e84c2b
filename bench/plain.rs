//! Simulates a bus with one memory board: answers each request line of
//! standard input with the signals of its cycles and the reply.
//!
//! `--cfg tuned` replaces the formatting through `fmt` by a hand-made one.

use std::io::{self, Read, Write};
use std::ops::RangeBounds;
use std::process::ExitCode;

const INPUT_LIMIT: usize = 1_048_576;
const LINE_LIMIT: usize = 80;
/// The most bytes that the words of a line can give.
const BYTES_LIMIT: usize = LINE_LIMIT / 2;
const OUTPUT_CHUNK: usize = 64 * 1024;
/// Room for the longest answer, that to a block of 256 data.
const ANSWER_LIMIT: usize = 32 * 1024;
const BOARD_SIZE: usize = 4096;
/// The address lines' four, which carry data of eight bytes alone, and the data lines' four.
const LANES: usize = 8;
const DATA_LANES: usize = 4;
const SINGLE_BYTES: usize = 8;
const WIDE_LENGTH: usize = 8;
const BLOCK_DATA: usize = 256;
const BLOCK_UNIT: u64 = 256;
const WIDE_UNIT: u64 = 2048;

/// Why a line is no request; the values are the digits printed.
#[derive(Clone, Copy)]
enum LineFault {
    TooLong = 1,
    Verb = 2,
    WordCount = 3,
    Code = 4,
    Address = 5,
    Number = 6,
    Data = 7,
}

/// Why a request has no cycle; the values are the digits printed.
#[derive(Clone, Copy)]
enum Refusal {
    ReservedCode = 1,
    UserCode = 2,
    NoCycle = 3,
    OutsideSpace = 4,
    WrongKind = 5,
    CrossesUnit = 6,
    ProgramModify = 7,
    Count = 8,
    CodeTooLarge = 9,
}

#[derive(Clone, Copy, PartialEq)]
enum Space {
    A16,
    A24,
    A32,
}

impl Space {
    fn size(self) -> u64 {
        match self {
            Space::A16 => 1 << 16,
            Space::A24 => 1 << 24,
            Space::A32 => 1 << 32,
        }
    }
}

/// What a code is for.
#[derive(PartialEq)]
enum Purpose {
    Data,
    Program,
    Block,
    WideBlock,
}

impl Purpose {
    fn is_block(&self) -> bool {
        matches!(self, Purpose::Block | Purpose::WideBlock)
    }
}

fn modifier(code: u8) -> Result<(Space, Purpose), Refusal> {
    match code {
        0x09 | 0x0d => Ok((Space::A32, Purpose::Data)),
        0x0a | 0x0e => Ok((Space::A32, Purpose::Program)),
        0x0b | 0x0f => Ok((Space::A32, Purpose::Block)),
        0x08 | 0x0c => Ok((Space::A32, Purpose::WideBlock)),
        0x39 | 0x3d => Ok((Space::A24, Purpose::Data)),
        0x3a | 0x3e => Ok((Space::A24, Purpose::Program)),
        0x3b | 0x3f => Ok((Space::A24, Purpose::Block)),
        0x38 | 0x3c => Ok((Space::A24, Purpose::WideBlock)),
        0x29 | 0x2d => Ok((Space::A16, Purpose::Data)),
        0x10..=0x1f => Err(Refusal::UserCode),
        0x40.. => Err(Refusal::CodeTooLarge),
        _ => Err(Refusal::ReservedCode),
    }
}

/// The bytes of a word, held in place.
struct Bytes {
    array: [u8; BYTES_LIMIT],
    len: usize,
}

impl Bytes {
    fn new(bytes: &[u8]) -> Self {
        let mut array = [0; BYTES_LIMIT];
        array[..bytes.len()].copy_from_slice(bytes);
        Bytes {
            array,
            len: bytes.len(),
        }
    }

    fn as_slice(&self) -> &[u8] {
        &self.array[..self.len]
    }
}

enum Access {
    Read,
    Write(Bytes),
    /// Writes one datum again and again.
    Fill(Bytes),
    Modify(Function<Bytes>),
}

enum Function<T> {
    Set,
    Exchange(T),
    Add(T),
    Compare { expected: T, put: T },
}

#[derive(Clone, Copy, PartialEq)]
enum Kind {
    Single,
    Block,
    Modify,
}

struct Target {
    code: u8,
    address: u32,
}

/// Moves `count` data of `length` bytes each.
struct Request {
    target: Target,
    kind: Kind,
    length: usize,
    count: usize,
    access: Access,
}

fn hex_digit(byte: u8) -> Option<u8> {
    char::from(byte).to_digit(16).map(|digit| digit as u8)
}

fn hex_number(word: &[u8], digits: usize) -> Option<u32> {
    if word.len() != digits {
        return None;
    }
    word.iter().try_fold(0, |number, &byte| {
        Some(number << 4 | u32::from(hex_digit(byte)?))
    })
}

fn hex_bytes(word: &[u8]) -> Option<Bytes> {
    let mut array = [0; BYTES_LIMIT];
    let len = word.len() / 2;
    if word.len() % 2 != 0 || len > array.len() {
        return None;
    }
    for (byte, pair) in array.iter_mut().zip(word.chunks_exact(2)) {
        *byte = hex_digit(pair[0])? << 4 | hex_digit(pair[1])?;
    }
    Some(Bytes { array, len })
}

fn parse_target(code: &[u8], address: &[u8]) -> Result<Target, LineFault> {
    let code = hex_number(code, 2).ok_or(LineFault::Code)? as u8;
    let address = hex_number(address, 8).ok_or(LineFault::Address)?;
    Ok(Target { code, address })
}

fn parse_length(word: &[u8]) -> Result<usize, LineFault> {
    match word {
        [digit @ b'1'..=b'8'] => Ok(usize::from(digit - b'0')),
        _ => Err(LineFault::Number),
    }
}

fn parse_count(word: &[u8]) -> Result<usize, LineFault> {
    if word.len() > 4 {
        return Err(LineFault::Number);
    }
    word.iter().try_fold(0, |number, &byte| match byte {
        b'0'..=b'9' => Ok(number * 10 + usize::from(byte - b'0')),
        _ => Err(LineFault::Number),
    })
}

fn parse_bytes(word: &[u8], lengths: impl RangeBounds<usize>) -> Result<Bytes, LineFault> {
    hex_bytes(word)
        .filter(|bytes| lengths.contains(&bytes.len))
        .ok_or(LineFault::Data)
}

fn take<'a, const N: usize>(
    words: &mut impl Iterator<Item = &'a [u8]>,
) -> Result<[&'a [u8]; N], LineFault> {
    let mut taken = [&[][..]; N];
    for word in &mut taken {
        *word = words.next().ok_or(LineFault::WordCount)?;
    }
    Ok(taken)
}

/// Takes all the words left, which must be `N`.
fn rest<'a, const N: usize>(
    mut words: impl Iterator<Item = &'a [u8]>,
) -> Result<[&'a [u8]; N], LineFault> {
    let rest = take(&mut words)?;
    match words.next() {
        None => Ok(rest),
        Some(_) => Err(LineFault::WordCount),
    }
}

fn parse_function<'a>(
    name: &[u8],
    words: impl Iterator<Item = &'a [u8]>,
) -> Result<Function<&'a [u8]>, LineFault> {
    match name {
        b"set" => rest(words).map(|[]| Function::Set),
        b"xchg" => rest(words).map(|[bytes]| Function::Exchange(bytes)),
        b"add" => rest(words).map(|[bytes]| Function::Add(bytes)),
        b"cas" => rest(words).map(|[expected, put]| Function::Compare { expected, put }),
        _ => Err(LineFault::Verb),
    }
}

impl Function<&[u8]> {
    fn parse_bytes(self, length: usize) -> Result<Function<Bytes>, LineFault> {
        let bytes = |word| parse_bytes(word, length..=length);
        Ok(match self {
            Function::Set => Function::Set,
            Function::Exchange(word) => Function::Exchange(bytes(word)?),
            Function::Add(word) => Function::Add(bytes(word)?),
            Function::Compare { expected, put } => Function::Compare {
                expected: bytes(expected)?,
                put: bytes(put)?,
            },
        })
    }
}

/// Adds modulo the numbers of that length, the first byte the most significant.
fn add(sum: &mut [u8], bytes: &[u8]) {
    let mut carry = 0;
    for (sum, &byte) in sum.iter_mut().zip(bytes).rev() {
        let total = u16::from(*sum) + u16::from(byte) + carry;
        *sum = total as u8;
        carry = total >> 8;
    }
}

impl Function<Bytes> {
    fn apply(&self, memory: &mut [u8]) {
        match self {
            Function::Set => memory[0] |= 0x80,
            Function::Exchange(bytes) => memory.copy_from_slice(bytes.as_slice()),
            Function::Add(bytes) => add(memory, bytes.as_slice()),
            Function::Compare { expected, put } => {
                if memory == expected.as_slice() {
                    memory.copy_from_slice(put.as_slice());
                }
            }
        }
    }
}

fn parse_request<'a>(
    verb: &[u8],
    mut words: impl Iterator<Item = &'a [u8]>,
) -> Result<Request, LineFault> {
    match verb {
        b"r" => {
            let [code, address, length] = rest(words)?;
            let target = parse_target(code, address)?;
            let length = parse_length(length)?;
            Ok(Request::single(target, length, Access::Read))
        }
        b"w" => {
            let [code, address, bytes] = rest(words)?;
            let target = parse_target(code, address)?;
            let bytes = parse_bytes(bytes, 1..=SINGLE_BYTES)?;
            Ok(Request::single(target, bytes.len, Access::Write(bytes)))
        }
        b"br" => {
            let [code, address, length, count] = rest(words)?;
            let target = parse_target(code, address)?;
            let length = parse_length(length)?;
            let count = parse_count(count)?;
            Ok(Request::block(target, length, count, Access::Read))
        }
        b"bw" => {
            let [code, address, length, bytes] = rest(words)?;
            let target = parse_target(code, address)?;
            let length = parse_length(length)?;
            let bytes = parse_bytes(bytes, 1..)?;
            let count = bytes.len / length;
            Ok(Request::block(target, length, count, Access::Write(bytes)))
        }
        b"bf" => {
            let [code, address, length, count, bytes] = rest(words)?;
            let target = parse_target(code, address)?;
            let length = parse_length(length)?;
            let count = parse_count(count)?;
            let bytes = parse_bytes(bytes, length..=length)?;
            Ok(Request::block(target, length, count, Access::Fill(bytes)))
        }
        b"m" => {
            let [code, address, length, name] = take(&mut words)?;
            let function = parse_function(name, words)?;
            let target = parse_target(code, address)?;
            let length = parse_length(length)?;
            let function = function.parse_bytes(length)?;
            Ok(Request::modify(target, length, function))
        }
        _ => Err(LineFault::Verb),
    }
}

/// `Ok(None)` is a line that asks for nothing.
fn parse(line: &[u8]) -> Result<Option<Request>, LineFault> {
    if line.len() > LINE_LIMIT {
        return Err(LineFault::TooLong);
    }
    if line.first() == Some(&b'#') {
        return Ok(None);
    }
    let mut words = line
        .split(|&byte| byte == b' ')
        .filter(|word| !word.is_empty());
    match words.next() {
        None => Ok(None),
        Some(verb) => parse_request(verb, words).map(Some),
    }
}

impl Request {
    fn single(target: Target, length: usize, access: Access) -> Self {
        Request {
            target,
            kind: Kind::Single,
            length,
            count: 1,
            access,
        }
    }

    fn block(target: Target, length: usize, count: usize, access: Access) -> Self {
        Request {
            target,
            kind: Kind::Block,
            length,
            count,
            access,
        }
    }

    fn modify(target: Target, length: usize, function: Function<Bytes>) -> Self {
        Request {
            target,
            kind: Kind::Modify,
            length,
            count: 1,
            access: Access::Modify(function),
        }
    }

    fn size(&self) -> usize {
        self.length * self.count
    }

    fn is_countable(&self, purpose: &Purpose) -> bool {
        let length_fits = match self.kind {
            Kind::Single => self.length <= DATA_LANES,
            Kind::Block if *purpose == Purpose::WideBlock => self.length == WIDE_LENGTH,
            Kind::Block | Kind::Modify => matches!(self.length, 1 | 2 | 4),
        };
        let bytes_fit = match &self.access {
            Access::Write(bytes) => bytes.len == self.size(),
            Access::Read | Access::Fill(_) | Access::Modify(_) => true,
        };
        length_fits && bytes_fit && (1..=BLOCK_DATA).contains(&self.count)
    }
}

/// How the bytes at one place in a group of four are carried.
struct Location {
    offset: u32,
    length: usize,
    ds1: u8,
    ds0: u8,
    a01: u8,
    lword: u8,
    first_lane: usize,
}

const L: u8 = 0;
const H: u8 = 1;

const fn location(offset: u32, length: usize, pins: [u8; 4], first_lane: usize) -> Location {
    let [ds1, ds0, a01, lword] = pins;
    Location {
        offset,
        length,
        ds1,
        ds0,
        a01,
        lword,
        first_lane,
    }
}

// Lane 4 is D31-D24, lane 7 is D07-D00.
static LOCATIONS: &[Location] = &[
    location(0, 1, [L, H, L, H], 6),
    location(1, 1, [H, L, L, H], 7),
    location(2, 1, [L, H, H, H], 6),
    location(3, 1, [H, L, H, H], 7),
    location(0, 2, [L, L, L, H], 6),
    location(2, 2, [L, L, H, H], 6),
    location(0, 4, [L, L, L, L], 4),
    location(0, 3, [L, H, L, L], 4),
    location(1, 3, [H, L, L, L], 5),
    location(1, 2, [L, L, H, L], 5),
];

/// All lanes, under the strobes of four bytes.
static WIDE: Location = location(0, WIDE_LENGTH, [L, L, L, L], 0);

impl Location {
    fn find(address: u32, length: usize) -> Option<&'static Location> {
        if length == WIDE_LENGTH {
            return Some(&WIDE);
        }
        LOCATIONS
            .iter()
            .find(|location| location.offset == address % 4 && location.length == length)
    }

    fn lanes(&self, bytes: &[u8]) -> [Option<u8>; LANES] {
        let mut lanes = [None; LANES];
        for (lane, &byte) in lanes[self.first_lane..].iter_mut().zip(bytes) {
            *lane = Some(byte);
        }
        lanes
    }
}

struct Signals {
    code: u8,
    address: u32,
    ds1: u8,
    ds0: u8,
    a01: u8,
    lword: u8,
    write: u8,
    /// Those of eight bytes, or the data lines' alone.
    first_lane: usize,
    lanes: [Option<u8>; LANES],
}

enum Reply<'a> {
    Read(&'a [u8]),
    Old(Bytes),
    Done,
    BusError,
}

/// A lawful request.
struct Plan<'a> {
    request: &'a Request,
    space: Space,
    first: &'static Location,
}

impl<'a> Plan<'a> {
    fn of(request: &'a Request) -> Result<Self, Refusal> {
        let (space, purpose) = modifier(request.target.code)?;
        if purpose.is_block() != (request.kind == Kind::Block) {
            return Err(Refusal::WrongKind);
        }
        if purpose == Purpose::Program && request.kind == Kind::Modify {
            return Err(Refusal::ProgramModify);
        }
        if !request.is_countable(&purpose) {
            return Err(Refusal::Count);
        }
        let address = request.target.address;
        let end = u64::from(address) + request.size() as u64;
        if end > space.size() {
            return Err(Refusal::OutsideSpace);
        }
        let first = Location::find(address, request.length).ok_or(Refusal::NoCycle)?;
        if request.kind != Kind::Single && address % request.length as u32 != 0 {
            return Err(Refusal::NoCycle);
        }
        let unit = match purpose {
            Purpose::WideBlock => WIDE_UNIT,
            _ => BLOCK_UNIT,
        };
        // Nothing but a block is long enough for this.
        if u64::from(address) / unit != (end - 1) / unit {
            return Err(Refusal::CrossesUnit);
        }
        Ok(Plan {
            request,
            space,
            first,
        })
    }

    /// All data of a block keep the address lines, A01 and LWORD* of the first.
    fn signals(&self, location: &Location, write: u8, lanes: [Option<u8>; LANES]) -> Signals {
        let Target { code, address } = self.request.target;
        Signals {
            code,
            address: address & !3,
            ds1: location.ds1,
            ds0: location.ds0,
            a01: self.first.a01,
            lword: self.first.lword,
            write,
            first_lane: if location.length == WIDE_LENGTH { 0 } else { LANES - DATA_LANES },
            lanes,
        }
    }

    fn print(&self, write: u8, data: &[u8], buffer: &mut print::Buffer) {
        let length = self.request.length;
        for (index, datum) in data.chunks_exact(length).enumerate() {
            let address = self.request.target.address + (index * length) as u32;
            let location =
                Location::find(address, length).expect("each datum of a block has a location");
            let signals = self.signals(location, write, location.lanes(datum));
            print::signals(buffer, &signals);
        }
    }

    fn print_unselected(&self, buffer: &mut print::Buffer) {
        match &self.request.access {
            Access::Read | Access::Modify(_) => {
                print::signals(buffer, &self.signals(self.first, H, [None; LANES]));
            }
            Access::Write(bytes) | Access::Fill(bytes) => {
                self.print(L, &bytes.as_slice()[..self.request.length], buffer);
            }
        }
    }
}

struct Board {
    memory: [u8; BOARD_SIZE],
}

impl Board {
    fn select(&mut self, plan: &Plan) -> Option<&mut [u8]> {
        if plan.space != Space::A32 {
            return None;
        }
        // A location lies within an aligned group of four and a block within
        // a unit, so neither straddles the end of the board.
        let start = plan.request.target.address as usize;
        self.memory.get_mut(start..start + plan.request.size())
    }

    /// Prints the signals; the reply is the caller's to print.
    fn run(&mut self, plan: &Plan, buffer: &mut print::Buffer) -> Reply<'_> {
        let Some(memory) = self.select(plan) else {
            plan.print_unselected(buffer);
            return Reply::BusError;
        };
        match &plan.request.access {
            Access::Read => {
                plan.print(H, memory, buffer);
                return Reply::Read(memory);
            }
            Access::Modify(function) => {
                plan.print(H, memory, buffer);
                let old = Bytes::new(memory);
                function.apply(memory);
                plan.print(L, memory, buffer);
                return Reply::Old(old);
            }
            Access::Write(bytes) => memory.copy_from_slice(bytes.as_slice()),
            Access::Fill(bytes) => {
                for datum in memory.chunks_exact_mut(bytes.len) {
                    datum.copy_from_slice(bytes.as_slice());
                }
            }
        }
        plan.print(L, memory, buffer);
        Reply::Done
    }
}

#[cfg(not(tuned))]
mod print {
    use super::{LineFault, Refusal, Reply, Signals};
    use std::fmt::{Result, Write};

    pub type Buffer = String;

    // Writing to a string cannot fail, hence the `unwrap`s.

    pub fn line_fault(buffer: &mut Buffer, fault: LineFault) {
        writeln!(buffer, "line refused S{}", fault as u8).unwrap();
    }

    pub fn refusal(buffer: &mut Buffer, refusal: Refusal) {
        writeln!(buffer, "refused K{}", refusal as u8).unwrap();
    }

    pub fn signals(buffer: &mut Buffer, signals: &Signals) {
        write_signals(buffer, signals).unwrap();
    }

    pub fn reply(buffer: &mut Buffer, reply: &Reply) {
        write_reply(buffer, reply).unwrap();
    }

    fn write_signals(buffer: &mut Buffer, signals: &Signals) -> Result {
        write!(
            buffer,
            "am={:02x} a={:08x} ds1={} ds0={} a01={} lword={} write={} data=",
            signals.code,
            signals.address,
            signals.ds1,
            signals.ds0,
            signals.a01,
            signals.lword,
            signals.write,
        )?;
        for lane in &signals.lanes[signals.first_lane..] {
            match lane {
                Some(byte) => write!(buffer, "{byte:02x}")?,
                None => buffer.push_str("--"),
            }
        }
        buffer.push('\n');
        Ok(())
    }

    fn write_reply(buffer: &mut Buffer, reply: &Reply) -> Result {
        match reply {
            Reply::Read(bytes) => write_bytes(buffer, "read ", bytes)?,
            Reply::Old(bytes) => write_bytes(buffer, "old ", bytes.as_slice())?,
            Reply::Done => buffer.push_str("done"),
            Reply::BusError => buffer.push_str("berr 0"),
        }
        buffer.push('\n');
        Ok(())
    }

    fn write_bytes(buffer: &mut Buffer, label: &str, bytes: &[u8]) -> Result {
        buffer.push_str(label);
        for byte in bytes {
            write!(buffer, "{byte:02x}")?;
        }
        Ok(())
    }
}

#[cfg(tuned)]
mod print {
    use super::{LineFault, Refusal, Reply, Signals};

    pub type Buffer = Vec<u8>;

    fn digit(value: u8) -> u8 {
        b"0123456789abcdef"[usize::from(value & 15)]
    }

    fn hex(byte: u8) -> [u8; 2] {
        [digit(byte >> 4), digit(byte)]
    }

    fn push(buffer: &mut Buffer, label: &[u8], value: u8) {
        buffer.extend_from_slice(label);
        buffer.push(digit(value));
    }

    pub fn line_fault(buffer: &mut Buffer, fault: LineFault) {
        push(buffer, b"line refused S", fault as u8);
        buffer.push(b'\n');
    }

    pub fn refusal(buffer: &mut Buffer, refusal: Refusal) {
        push(buffer, b"refused K", refusal as u8);
        buffer.push(b'\n');
    }

    pub fn signals(buffer: &mut Buffer, signals: &Signals) {
        buffer.extend_from_slice(b"am=");
        buffer.extend_from_slice(&hex(signals.code));
        buffer.extend_from_slice(b" a=");
        for byte in signals.address.to_be_bytes() {
            buffer.extend_from_slice(&hex(byte));
        }
        push(buffer, b" ds1=", signals.ds1);
        push(buffer, b" ds0=", signals.ds0);
        push(buffer, b" a01=", signals.a01);
        push(buffer, b" lword=", signals.lword);
        push(buffer, b" write=", signals.write);
        buffer.extend_from_slice(b" data=");
        for lane in &signals.lanes[signals.first_lane..] {
            buffer.extend_from_slice(&lane.map_or(*b"--", hex));
        }
        buffer.push(b'\n');
    }

    pub fn reply(buffer: &mut Buffer, reply: &Reply) {
        match reply {
            Reply::Read(bytes) => push_bytes(buffer, b"read ", bytes),
            Reply::Old(bytes) => push_bytes(buffer, b"old ", bytes.as_slice()),
            Reply::Done => buffer.extend_from_slice(b"done"),
            Reply::BusError => buffer.extend_from_slice(b"berr 0"),
        }
        buffer.push(b'\n');
    }

    fn push_bytes(buffer: &mut Buffer, label: &[u8], bytes: &[u8]) {
        buffer.extend_from_slice(label);
        for &byte in bytes {
            buffer.extend_from_slice(&hex(byte));
        }
    }
}

/// Answers every line; the result tells whether each request was served.
fn answer(input: &[u8], output: &mut impl Write) -> io::Result<bool> {
    let mut board = Board {
        memory: [0; BOARD_SIZE],
    };
    let mut buffer = print::Buffer::with_capacity(OUTPUT_CHUNK + ANSWER_LIMIT);
    let mut all_served = true;

    for line in input.split_inclusive(|&byte| byte == b'\n') {
        let line = match line.strip_suffix(b"\n") {
            Some(line) => line.strip_suffix(b"\r").unwrap_or(line),
            None => line,
        };
        match parse(line) {
            Ok(None) => {}
            Ok(Some(request)) => match Plan::of(&request) {
                Ok(plan) => {
                    let reply = board.run(&plan, &mut buffer);
                    all_served &= !matches!(reply, Reply::BusError);
                    print::reply(&mut buffer, &reply);
                }
                Err(refusal) => {
                    all_served = false;
                    print::refusal(&mut buffer, refusal);
                }
            },
            Err(fault) => {
                all_served = false;
                print::line_fault(&mut buffer, fault);
            }
        }
        if buffer.len() >= OUTPUT_CHUNK {
            output.write_all(buffer.as_ref())?;
            buffer.clear();
        }
    }
    output.write_all(buffer.as_ref())?;
    output.flush()?;
    Ok(all_served)
}

fn run() -> io::Result<ExitCode> {
    let mut input = Vec::with_capacity(INPUT_LIMIT + 1);
    io::stdin()
        .lock()
        .take(INPUT_LIMIT as u64 + 1)
        .read_to_end(&mut input)?;
    if input.len() > INPUT_LIMIT {
        eprintln!("vme: too long");
        return Ok(ExitCode::from(3));
    }
    let all_served = answer(&input, &mut io::stdout().lock())?;
    Ok(if all_served {
        ExitCode::SUCCESS
    } else {
        ExitCode::FAILURE
    })
}

fn main() -> ExitCode {
    run().unwrap_or_else(|error| {
        eprintln!("vme: {error}");
        ExitCode::from(2)
    })
}
