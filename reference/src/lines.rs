//! The lines of scripts and of `vme cycles`.

use crate::boards::{Command, Port};
use crate::requests::{Action, Form, Function, Plan, Refusal, Request};

/// Why a line is refused; the number is that of its text.
#[derive(Clone, Copy, PartialEq, Eq, Debug)]
pub enum LineFault {
    TooLong = 1,
    UnknownWord = 2,
    WordCount = 3,
    BadCode = 4,
    BadAddress = 5,
    BadNumber = 6,
    BadBytes = 7,
    TooManyLines = 8,
    MailboxBytes = 9,
}

/// A lawful request, or why the request is refused.
pub type Asked = Result<Plan, Refusal>;

#[derive(Clone, Debug)]
pub enum Line {
    Bus(Asked),
    Local(Command),
    Await(Asked, Vec<u8>),
    Lock(Asked),
    Unlock(Asked),
    /// A mailbox by its number in the file, from 1, and a word.
    Put(usize, Vec<u8>),
    Take(usize),
}

/// Each command with what stands after it.
const FORMS: [(&str, &str); 14] = [
    ("r", "AM ADDR N"),
    ("w", "AM ADDR HEX"),
    ("br", "AM ADDR N COUNT"),
    ("bw", "AM ADDR N HEX"),
    ("bf", "AM ADDR N COUNT HEX"),
    ("m", "AM ADDR N FUNC"),
    ("lr", "OFF N"),
    ("lw", "OFF HEX"),
    ("lm", "OFF N FUNC"),
    ("await", "AM ADDR HEX"),
    ("lock", "AM ADDR"),
    ("unlock", "AM ADDR"),
    ("put", "BOX HEX"),
    ("take", "BOX"),
];

/// Each function with what stands after it.
const FUNCTIONS: [(&str, &str); 4] = [("set", ""), ("xchg", "HEX"), ("add", "HEX"), ("cas", "HEX HEX")];

/// The commands of `vme cycles`.
pub const CYCLES: [&str; 6] = ["r", "w", "br", "bw", "bf", "m"];

const LONGEST: usize = 80;

/// The lines of a text without their ends.
pub fn split(text: &[u8]) -> Vec<&[u8]> {
    let mut lines = Vec::new();
    for line in text.split_inclusive(|it| *it == b'\n') {
        lines.push(match line {
            [line @ .., b'\r', b'\n'] | [line @ .., b'\n'] | line => line,
        });
    }
    lines
}

/// The words of a line that asks for something; none where it asks for nothing.
pub fn words(line: &[u8]) -> Result<Vec<&[u8]>, LineFault> {
    if line.len() > LONGEST {
        return Err(LineFault::TooLong);
    }
    if line.first() == Some(&b'#') {
        return Ok(Vec::new());
    }
    Ok(line.split(|it| *it == b' ').filter(|it| !it.is_empty()).collect())
}

/// The line, if it asks for something.
pub fn parse(line: &[u8]) -> Result<Option<Line>, LineFault> {
    let words = words(line)?;
    let Some((command, rest)) = words.split_first() else {
        return Ok(None);
    };
    let form = named(&FORMS, command).ok_or(LineFault::UnknownWord)?;
    let places = places(form.1, rest)?;
    if places.len() != rest.len() {
        return Err(LineFault::WordCount);
    }
    let mut fields = Fields { command: form.0, ..Fields::default() };
    for (place, word) in places.iter().zip(rest) {
        fields.read(place, word)?;
    }
    Ok(Some(fields.line()))
}

fn named(table: &[(&'static str, &'static str)], word: &[u8]) -> Option<(&'static str, &'static str)> {
    table.iter().find(|it| it.0.as_bytes() == word).copied()
}

/// The places of a form, where FUNC is followed by those of the function that stands there.
fn places(form: &'static str, words: &[&[u8]]) -> Result<Vec<&'static str>, LineFault> {
    let mut places: Vec<_> = form.split_whitespace().collect();
    if let Some(at) = places.iter().position(|it| *it == "FUNC") {
        if let Some(word) = words.get(at) {
            let function = named(&FUNCTIONS, word).ok_or(LineFault::UnknownWord)?;
            places.extend(function.1.split_whitespace());
        }
    }
    Ok(places)
}

/// What the words of a line say, read from the left.
#[derive(Default)]
struct Fields {
    command: &'static str,
    function: &'static str,
    am: u8,
    address: u32,
    length: usize,
    count: usize,
    mailbox: usize,
    bytes: Vec<Vec<u8>>,
}

impl Fields {
    fn read(&mut self, place: &str, word: &[u8]) -> Result<(), LineFault> {
        match place {
            "AM" => self.am = hexadecimal(word, 2).ok_or(LineFault::BadCode)? as u8,
            "ADDR" | "OFF" => self.address = hexadecimal(word, 8).ok_or(LineFault::BadAddress)?,
            "N" => self.length = self.datum_length(word).ok_or(LineFault::BadNumber)?,
            "COUNT" => self.count = decimal(word, 4).ok_or(LineFault::BadNumber)?,
            "BOX" => self.mailbox = decimal(word, 2).ok_or(LineFault::BadNumber)?,
            "HEX" => {
                let bytes = pairs(word).filter(|it| self.allows(it.len())).ok_or(LineFault::BadBytes)?;
                self.bytes.push(bytes);
            }
            "FUNC" => self.function = named(&FUNCTIONS, word).ok_or(LineFault::UnknownWord)?.0,
            _ => unreachable!("no form has the place {place}"),
        }
        Ok(())
    }

    fn datum_length(&self, word: &[u8]) -> Option<usize> {
        let length = decimal(word, 1)?;
        let is_local = self.command.starts_with('l');
        let is_allowed = if is_local { matches!(length, 1 | 2 | 4) } else { (1..=8).contains(&length) };
        is_allowed.then_some(length)
    }

    /// Whether the bytes of the command have this length.
    fn allows(&self, length: usize) -> bool {
        match self.command {
            "w" | "await" => (1..=8).contains(&length),
            "bw" => length >= 1,
            "bf" | "m" | "lm" => length == self.length,
            "lw" => matches!(length, 1 | 2 | 4),
            "put" => length == 4,
            command => unreachable!("{command} has no bytes"),
        }
    }

    fn function(&mut self) -> Function {
        let mut bytes = std::mem::take(&mut self.bytes).into_iter();
        let mut next = || bytes.next().unwrap_or_default();
        match self.function {
            "set" => Function::Set,
            "xchg" => Function::Exchange(next()),
            "add" => Function::Add(next()),
            _ => Function::Compare { expect: next(), put: next() },
        }
    }

    fn line(mut self) -> Line {
        let bytes = self.bytes.first().cloned().unwrap_or_default();
        match self.command {
            "r" => Line::Bus(self.asked(self.length, Form::Read)),
            "w" => Line::Bus(self.asked(bytes.len(), Form::Write(bytes))),
            "br" => Line::Bus(self.asked(self.length, Form::BlockRead { count: self.count })),
            "bw" => Line::Bus(self.asked(self.length, Form::BlockWrite(bytes))),
            "bf" => Line::Bus(self.asked(self.length, Form::BlockFill { count: self.count, bytes })),
            "m" => {
                let function = self.function();
                Line::Bus(self.asked(self.length, Form::Modify(function)))
            }
            "lr" => Line::Local(self.local(self.length, Action::Read)),
            "lw" => Line::Local(self.local(bytes.len(), Action::Write(bytes))),
            "lm" => {
                let function = self.function();
                Line::Local(self.local(self.length, Action::Modify(function)))
            }
            "await" => Line::Await(self.asked(bytes.len(), Form::Read), bytes),
            "lock" => Line::Lock(self.asked(1, Form::Modify(Function::Set))),
            "unlock" => Line::Unlock(self.asked(1, Form::Write(vec![0]))),
            "put" => Line::Put(self.mailbox, bytes),
            _ => Line::Take(self.mailbox),
        }
    }

    fn asked(&self, length: usize, form: Form) -> Asked {
        Request { am: self.am, address: self.address, length, form }.plan()
    }

    fn local(&self, length: usize, action: Action) -> Command {
        Command { port: Port::Local, offset: self.address.into(), length, action }
    }
}

/// A number of just so many hexadecimal digits.
fn hexadecimal(word: &[u8], digits: usize) -> Option<u32> {
    if word.len() != digits {
        return None;
    }
    word.iter().try_fold(0, |number, it| Some(number << 4 | char::from(*it).to_digit(16)?))
}

/// A number of one to so many decimal digits.
fn decimal(word: &[u8], most: usize) -> Option<usize> {
    if !(1..=most).contains(&word.len()) {
        return None;
    }
    word.iter().try_fold(0, |number, it| Some(number * 10 + char::from(*it).to_digit(10)? as usize))
}

/// The bytes of pairs of hexadecimal digits.
fn pairs(word: &[u8]) -> Option<Vec<u8>> {
    word.chunks(2).map(|it| Some(hexadecimal(it, 2)? as u8)).collect()
}
