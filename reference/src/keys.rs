//! The keys of a file: each known, of its kind, and there where it has to be.

use crate::configuration::Fault;
use crate::toml::{Table, Value};

/// A file's values, with the defaults of those that are absent.
pub struct File {
    pub arbiter: String,
    pub tries: u32,
    /// Pairs of a slot and its turns.
    pub schedule: Vec<(u32, u32)>,
    pub rounds: u32,
    pub boards: Vec<Board>,
    pub mailboxes: Vec<Mailbox>,
}

pub struct Board {
    pub slot: u32,
    pub level: u32,
    pub space: String,
    pub base: u32,
    pub size: u32,
    pub width: u32,
    pub uat: bool,
    pub blt: bool,
    pub rmw: bool,
    pub supervisory: bool,
    pub script: String,
}

pub struct Mailbox {
    pub am: u32,
    pub addr: u32,
    pub slots: u32,
}

const TOP: [&str; 6] = ["arbiter", "tries", "schedule", "rounds", "board", "mailbox"];
const BOARD: [&str; 11] =
    ["slot", "level", "space", "base", "size", "width", "uat", "blt", "rmw", "supervisory", "script"];
const MAILBOX: [&str; 3] = ["am", "addr", "slots"];

/// The values of a document, or nothing where a key is bad.
pub fn file(document: &Table) -> Result<File, Fault> {
    let keys = Keys::of(document, &TOP)?;
    Ok(File {
        arbiter: keys.text("arbiter")?.unwrap_or("priority".into()),
        tries: keys.whole("tries")?.unwrap_or(1000),
        schedule: keys.array("schedule")?.iter().map(pair).collect::<Result<_, _>>()?,
        rounds: keys.whole("rounds")?.unwrap_or(0),
        boards: keys.array("board")?.iter().map(board).collect::<Result<_, _>>()?,
        mailboxes: keys.array("mailbox")?.iter().map(mailbox).collect::<Result<_, _>>()?,
    })
}

fn board(value: &Value) -> Result<Board, Fault> {
    let keys = Keys::of(table(value)?, &BOARD)?;
    let width = keys.whole("width")?.unwrap_or(32);
    Ok(Board {
        slot: keys.whole("slot")?.ok_or(Fault::BadKey)?,
        level: keys.whole("level")?.unwrap_or(3),
        space: keys.text("space")?.unwrap_or("a32".into()),
        base: keys.whole("base")?.ok_or(Fault::BadKey)?,
        size: keys.whole("size")?.ok_or(Fault::BadKey)?,
        width,
        uat: keys.truth("uat")?.unwrap_or(width == 32),
        blt: keys.truth("blt")?.unwrap_or(true),
        rmw: keys.truth("rmw")?.unwrap_or(true),
        supervisory: keys.truth("supervisory")?.unwrap_or(false),
        script: keys.text("script")?.unwrap_or_default(),
    })
}

fn mailbox(value: &Value) -> Result<Mailbox, Fault> {
    let keys = Keys::of(table(value)?, &MAILBOX)?;
    Ok(Mailbox {
        am: keys.whole("am")?.ok_or(Fault::BadKey)?,
        addr: keys.whole("addr")?.ok_or(Fault::BadKey)?,
        slots: keys.whole("slots")?.ok_or(Fault::BadKey)?,
    })
}

fn pair(value: &Value) -> Result<(u32, u32), Fault> {
    match value {
        Value::Array(values) => match &values[..] {
            [slot, turns] => Ok((whole(slot)?, whole(turns)?)),
            _ => Err(Fault::BadKey),
        },
        _ => Err(Fault::BadKey),
    }
}

fn table(value: &Value) -> Result<&Table, Fault> {
    match value {
        Value::Table(table) => Ok(table),
        _ => Err(Fault::BadKey),
    }
}

fn whole(value: &Value) -> Result<u32, Fault> {
    match value {
        Value::Integer(number) => u32::try_from(*number).map_err(|_| Fault::BadKey),
        _ => Err(Fault::BadKey),
    }
}

/// A table whose keys are all known.
struct Keys<'a>(&'a Table);

impl Keys<'_> {
    fn of<'a>(table: &'a Table, known: &[&str]) -> Result<Keys<'a>, Fault> {
        let all_known = table.iter().all(|(key, _)| known.contains(&key.as_str()));
        all_known.then_some(Keys(table)).ok_or(Fault::BadKey)
    }

    fn find(&self, key: &str) -> Option<&Value> {
        self.0.iter().find(|it| it.0 == key).map(|it| &it.1)
    }

    fn whole(&self, key: &str) -> Result<Option<u32>, Fault> {
        self.find(key).map(whole).transpose()
    }

    fn truth(&self, key: &str) -> Result<Option<bool>, Fault> {
        match self.find(key) {
            None => Ok(None),
            Some(Value::Boolean(truth)) => Ok(Some(*truth)),
            Some(_) => Err(Fault::BadKey),
        }
    }

    fn text(&self, key: &str) -> Result<Option<String>, Fault> {
        match self.find(key) {
            None => Ok(None),
            Some(Value::Text(text)) => Ok(Some(text.clone())),
            Some(_) => Err(Fault::BadKey),
        }
    }

    /// The values of an array; none where it is absent.
    fn array(&self, key: &str) -> Result<&[Value], Fault> {
        match self.find(key) {
            None => Ok(&[]),
            Some(Value::Array(values)) => Ok(values),
            Some(_) => Err(Fault::BadKey),
        }
    }
}
