//! A configuration before it is written down: keys with the texts of their values, so that a fault can put any text
//! in place of a value.

use crate::random::Random;

pub type Table = Vec<(String, String)>;

#[derive(Clone, Default)]
pub struct Draft {
    pub top: Table,
    pub boards: Vec<Board>,
    pub mailboxes: Vec<Table>,
    /// Lines put where they are no TOML, or anything else.
    pub more: Vec<String>,
}

#[derive(Clone, Default)]
pub struct Board {
    pub keys: Table,
    /// The lines of its script. A script whose lines are not UTF-8 makes no TOML.
    pub script: Vec<Vec<u8>>,
}

/// Puts a value in place of a key's value, or beside the others.
pub fn set(table: &mut Table, key: &str, value: &str) {
    table.retain(|it| it.0 != key);
    table.push((key.into(), value.into()));
}

pub fn get<'a>(table: &'a Table, key: &str) -> Option<&'a str> {
    table.iter().find(|it| it.0 == key).map(|it| it.1.as_str())
}

impl Draft {
    /// The text, its keys, numbers and strings in one of their spellings.
    pub fn text(&self, random: &mut Random) -> String {
        let mut parts: Vec<String> = Vec::new();
        let is_inline = random.one_in(20);
        let mut boards: Vec<String> = match is_inline {
            true => vec![inline_boards(random, &self.boards)],
            false => self.boards.iter().map(|it| board(random, it)).collect(),
        };
        let mailboxes = self.mailboxes.iter().map(|it| format!("[[mailbox]]\n{}", table(random, it)));
        let mailboxes: Vec<String> = mailboxes.collect();
        if random.one_in(2) && !is_inline {
            boards.splice(0..0, mailboxes);
        } else {
            boards.extend(mailboxes);
        }
        parts.push(table(random, &self.top));
        parts.extend(boards);
        for line in &self.more {
            let at = random.below(parts.len() + 1);
            parts.insert(at, format!("{line}\n"));
        }
        let text = parts.join(if random.one_in(3) { "\n" } else { "" });
        if random.one_in(30) {
            text.replace('\n', "\r\n")
        } else {
            text
        }
    }
}

fn board(random: &mut Random, board: &Board) -> String {
    let mut text = format!("[[board]]\n{}", table(random, &board.keys));
    if !board.script.is_empty() {
        text += &format!("script = {}\n", script(random, &board.script));
    }
    text
}

/// All boards as one value.
fn inline_boards(random: &mut Random, boards: &[Board]) -> String {
    let mut tables = Vec::new();
    for board in boards {
        let mut pairs: Vec<String> = board.keys.iter().map(|(key, value)| format!("{key} = {value}")).collect();
        if !board.script.is_empty() {
            pairs.push(format!("script = {}", script(random, &board.script)));
        }
        random.shuffle(&mut pairs);
        tables.push(format!("{{ {} }}", pairs.join(", ")));
    }
    let last = random.pick(&["", ",", " # a comment\n", ", # a comment\n"]);
    format!("board = [{}{last}]\n", tables.join(random.pick(&[",", ", ", ",\n    ", "\n,"])))
}

fn script(random: &mut Random, lines: &[Vec<u8>]) -> String {
    let lines: Vec<_> = lines.iter().map(|it| String::from_utf8_lossy(it)).collect();
    let end = if random.one_in(10) { "\r\n" } else { "\n" };
    let last_end = random.pick(&["", "", "", "\n", "\r\n"]);
    string(random, &(lines.join(end) + last_end))
}

fn table(random: &mut Random, table: &Table) -> String {
    let mut pairs: Vec<_> = table.iter().map(|it| pair(random, it)).collect();
    random.shuffle(&mut pairs);
    pairs.concat()
}

fn pair(random: &mut Random, (key, value): &(String, String)) -> String {
    let key = if random.one_in(40) { format!("\"{key}\"") } else { key.clone() };
    let value = match value.parse::<u32>() {
        Ok(number) => spelled(random, number),
        Err(_) => value.clone(),
    };
    let comment = if random.one_in(20) { " # a comment" } else { "" };
    match random.below(10) {
        0 => format!("{key}={value}{comment}\n"),
        1 => format!("  {key}\t=  {value} {comment}\n"),
        _ => format!("{key} = {value}{comment}\n"),
    }
}

/// A number in one of its spellings.
fn spelled(random: &mut Random, number: u32) -> String {
    match random.below(16) {
        0..=3 => format!("{number:#x}"),
        4 => format!("{number:#o}"),
        5 => format!("{number:#b}"),
        6 => format!("+{number}"),
        7 if number >= 1000 => format!("{}_{:03}", number / 1000, number % 1000),
        _ => number.to_string(),
    }
}

/// A text in one of the spellings that can hold it.
pub fn string(random: &mut Random, text: &str) -> String {
    let has_controls = text.chars().any(|it| (it < ' ' && it != '\t' && it != '\n') || it == '\u{7f}');
    match random.below(4) {
        0 if !has_controls && !text.contains('\'') => format!("'''\n{text}'''"),
        1 if !has_controls && !text.contains('\'') && !text.contains('\n') => format!("'{text}'"),
        2 if !has_controls && !text.contains(['"', '\\']) => format!("\"\"\"\n{text}\n\"\"\""),
        _ => format!("\"{}\"", text.chars().map(escaped).collect::<String>()),
    }
}

fn escaped(it: char) -> String {
    match it {
        '"' => "\\\"".into(),
        '\\' => "\\\\".into(),
        '\n' => "\\n".into(),
        '\t' => "\\t".into(),
        _ if it < ' ' || it == '\u{7f}' => format!("\\u{:04x}", it as u32),
        _ => it.into(),
    }
}
