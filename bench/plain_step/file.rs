//! Reads a configuration file: as much of TOML as such files use.

use crate::line::{self, Line};
use crate::memory::{Board, Space};
use std::borrow::Cow;

pub struct File {
    pub tries: u32,
    pub schedule: Vec<(u16, u32)>,
    pub rounds: u32,
    pub boards: Vec<BoardTable>,
}

pub struct BoardTable {
    pub slot: u16,
    pub level: usize,
    pub board: Board,
    pub script: Vec<(u16, Line)>,
}

/// What is wrong with a file, in words.
pub type Fault = String;

enum Value<'a> {
    Number(u32),
    Truth(bool),
    Text(Cow<'a, str>),
    Array(Vec<Value<'a>>),
}

struct Reader<'a> {
    text: &'a str,
}

impl<'a> Reader<'a> {
    fn skip(&mut self, bytes: usize) {
        self.text = &self.text[bytes..];
    }

    fn skip_spaces(&mut self) {
        self.text = self.text.trim_start_matches([' ', '\t']);
    }

    /// Skips spaces, ends of lines and comments.
    fn skip_blank(&mut self) {
        loop {
            self.text = self.text.trim_start_matches([' ', '\t', '\r', '\n']);
            if !self.text.starts_with('#') {
                return;
            }
            self.skip(self.text.find('\n').unwrap_or(self.text.len()));
        }
    }

    fn eats(&mut self, token: &str) -> bool {
        let is_there = self.text.starts_with(token);
        if is_there {
            self.skip(token.len());
        }
        is_there
    }

    fn expect(&mut self, token: &str) -> Result<(), Fault> {
        self.skip_spaces();
        if self.eats(token) {
            return Ok(());
        }
        Err(format!("no {token} where there should be one"))
    }

    /// The bytes up to the first that is none of a word's.
    fn word(&mut self) -> &'a str {
        let is_part = |c: char| c.is_ascii_alphanumeric() || c == '_';
        let end = self.text.find(|c| !is_part(c)).unwrap_or(self.text.len());
        let word = &self.text[..end];
        self.skip(end);
        word
    }

    fn value(&mut self) -> Result<Value<'a>, Fault> {
        for quotes in ["\"\"\"", "'''", "\"", "'"] {
            if self.eats(quotes) {
                return self.text_until(quotes).map(Value::Text);
            }
        }
        if self.eats("[") {
            return self.items().map(Value::Array);
        }
        match self.word() {
            "true" => Ok(Value::Truth(true)),
            "false" => Ok(Value::Truth(false)),
            word => number(word).map(Value::Number),
        }
    }

    /// The elements of an array, with its end.
    fn items(&mut self) -> Result<Vec<Value<'a>>, Fault> {
        let mut items = Vec::new();
        loop {
            self.skip_blank();
            if self.eats("]") {
                return Ok(items);
            }
            items.push(self.value()?);
            self.skip_blank();
            if !self.eats(",") && !self.text.starts_with(']') {
                return Err("an array has no comma".into());
            }
        }
    }

    /// The text of a string, with its end: a part of the file, or a copy of one with escapes.
    fn text_until(&mut self, quotes: &str) -> Result<Cow<'a, str>, Fault> {
        if quotes.len() == 3 && !self.eats("\n") {
            self.eats("\r\n");
        }
        let end = self.text.find(quotes).ok_or("a string has no end")?;
        let text = &self.text[..end];
        if !quotes.starts_with('\'') && text.contains('\\') {
            return self.text_with_escapes(quotes).map(Cow::Owned);
        }
        self.skip(end + quotes.len());
        Ok(Cow::Borrowed(text))
    }

    fn text_with_escapes(&mut self, quotes: &str) -> Result<String, Fault> {
        let mut text = String::new();
        while !self.eats(quotes) {
            let next = self.text.chars().next().ok_or("a string has no end")?;
            self.skip(next.len_utf8());
            text.push(if next == '\\' { self.escaped()? } else { next });
        }
        Ok(text)
    }

    fn escaped(&mut self) -> Result<char, Fault> {
        let letter = self.text.chars().next().ok_or("a string has no end")?;
        self.skip(letter.len_utf8());
        match letter {
            'n' => Ok('\n'),
            'r' => Ok('\r'),
            't' => Ok('\t'),
            '"' | '\\' => Ok(letter),
            _ => Err(format!("an escape with {letter}")),
        }
    }
}

fn number(word: &str) -> Result<u32, Fault> {
    let digits = word.replace('_', "");
    match digits.strip_prefix("0x") {
        Some(digits) => u32::from_str_radix(digits, 16),
        None => digits.parse(),
    }
    .map_err(|_| format!("{word} is no value"))
}

/// Keys with their values, in the order of the file.
#[derive(Default)]
struct Table<'a>(Vec<(&'a str, Value<'a>)>);

impl<'a> Table<'a> {
    fn take(&mut self, key: &str) -> Option<Value<'a>> {
        let at = self.0.iter().position(|(name, _)| *name == key)?;
        Some(self.0.swap_remove(at).1)
    }

    fn number(&mut self, key: &str, default: Option<u32>) -> Result<u32, Fault> {
        match self.take(key) {
            Some(Value::Number(number)) => Ok(number),
            None => default.ok_or(format!("no {key}")),
            Some(_) => Err(format!("{key} is no number")),
        }
    }

    fn truth(&mut self, key: &str, default: bool) -> Result<bool, Fault> {
        match self.take(key) {
            Some(Value::Truth(truth)) => Ok(truth),
            None => Ok(default),
            Some(_) => Err(format!("{key} is no truth value")),
        }
    }

    fn text(&mut self, key: &str, default: &'static str) -> Result<Cow<'a, str>, Fault> {
        match self.take(key) {
            Some(Value::Text(text)) => Ok(text),
            None => Ok(default.into()),
            Some(_) => Err(format!("{key} is no text")),
        }
    }

    fn is_read(self) -> Result<(), Fault> {
        match self.0.first() {
            None => Ok(()),
            Some((key, _)) => Err(format!("there is no key {key}")),
        }
    }
}

/// The table at the top and those of the boards.
fn tables(text: &str) -> Result<(Table<'_>, Vec<Table<'_>>), Fault> {
    let mut reader = Reader { text };
    let mut top = Table::default();
    let mut boards: Vec<Table> = Vec::new();
    loop {
        reader.skip_blank();
        if reader.text.is_empty() {
            return Ok((top, boards));
        }
        if reader.eats("[[board]]") {
            boards.push(Table::default());
            continue;
        }
        let key = reader.word();
        reader.expect("=")?;
        reader.skip_spaces();
        let value = reader.value()?;
        boards.last_mut().unwrap_or(&mut top).0.push((key, value));
    }
}

fn schedule(value: Option<Value<'_>>) -> Result<Vec<(u16, u32)>, Fault> {
    let pairs = match value {
        None => return Ok(Vec::new()),
        Some(Value::Array(pairs)) => pairs,
        Some(_) => return Err("schedule is no array".into()),
    };
    let pair = |value| match value {
        Value::Array(items) => match items[..] {
            [Value::Number(slot), Value::Number(turns)] => Ok((slot as u16, turns)),
            _ => Err("a turn of the schedule is no pair".into()),
        },
        _ => Err("a turn of the schedule is no pair".into()),
    };
    pairs.into_iter().map(pair).collect()
}

fn board(mut table: Table<'_>) -> Result<BoardTable, Fault> {
    let slot = table.number("slot", None)? as u16;
    let level = table.number("level", Some(3))? as usize;
    let space = match &*table.text("space", "a32")? {
        "a16" => Space::A16,
        "a24" => Space::A24,
        "a32" => Space::A32,
        other => return Err(format!("{other} is no space")),
    };
    let base = table.number("base", None)?;
    let size = table.number("size", None)?;
    let width = table.number("width", Some(32))?;
    let board = Board {
        space,
        base,
        supervisory: table.truth("supervisory", false)?,
        width,
        uat: table.truth("uat", width == 32)?,
        blt: table.truth("blt", true)?,
        rmw: table.truth("rmw", true)?,
        bytes: vec![0; size as usize],
        made: Vec::new(),
    };
    let script = line::script(table.text("script", "")?.as_bytes());
    table.is_read()?;
    let script = script.map_err(|(line, fault)| format!("slot {slot} line {line} {fault}"))?;
    Ok(BoardTable { slot, level, board, script })
}

/// What a file configures.
pub fn read(text: &str) -> Result<File, Fault> {
    let (mut top, boards) = tables(text)?;
    let file = File {
        tries: top.number("tries", Some(1_000))?,
        schedule: schedule(top.take("schedule"))?,
        rounds: top.number("rounds", Some(0))?,
        boards: boards.into_iter().map(board).collect::<Result<_, _>>()?,
    };
    if top.text("arbiter", "priority")? != "priority" {
        return Err("the arbiter is another".into());
    }
    top.is_read()?;
    Ok(file)
}
