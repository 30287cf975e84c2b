//! `check`: whether some interleaving of the whole machine gives a report of `vme run`.

mod judge;
mod needs;
mod order;
mod search;
mod state;
mod supplies;
#[cfg(test)]
mod tests;

use crate::configuration::{self, Configuration};
use crate::exit::Exit;
use crate::reading;
use crate::report::{Report, ROW};
use search::{Found, Search};

pub fn check(report: &[u8], file: &[u8]) -> Exit {
    if file.len() > configuration::MOST_BYTES {
        return Exit::fault("too long");
    }
    let configuration = match reading::configuration(file) {
        Ok(configuration) => configuration,
        Err(refused) => return Exit::refused(refused),
    };
    let Some(report) = read(report, &configuration) else {
        return Exit::answer(crate::exit::MARKED, "the text is no report of this configuration");
    };
    match Search::of(&configuration, &report).run() {
        Found::Interleaving => Exit::answer(crate::exit::CLEAN, "possible"),
        Found::Nothing => Exit::answer(crate::exit::MARKED, "no interleaving gives this report"),
        Found::TooMuch => Exit::answer(crate::exit::NOT_DECIDED, "not decided"),
    }
}

/// The report that a text is, if it is one of this configuration.
fn read(text: &[u8], configuration: &Configuration) -> Option<Report> {
    let text = std::str::from_utf8(text).ok()?;
    let count = configuration.boards.len();
    let mut lines = text.lines().peekable();
    let mut report = Report { replies: Vec::new(), made: Vec::new(), memories: Vec::new() };
    for board in &configuration.boards {
        let replies = board.script.iter().map(|_| Some(lines.next()?.split_once(' ')?.1.to_string()));
        report.replies.push(replies.collect::<Option<_>>()?);
    }
    for _ in 0..count {
        let (_, made) = lines.next()?.split_once(" made ")?;
        let made: Vec<u64> = made.split(' ').map(|it| it.parse().ok()).collect::<Option<_>>()?;
        report.made.push(made);
    }
    for board in &configuration.boards {
        let mut memory = vec![0; board.range.size as usize];
        let begin = format!("mem {} ", board.slot);
        while let Some(row) = lines.next_if(|it| it.starts_with(&begin)) {
            let (offset, digits) = row[begin.len()..].split_once(' ')?;
            let offset = usize::from_str_radix(offset, 16).ok()?;
            let length = digits.len() / 2;
            let place = memory.get_mut(offset..offset + length.min(ROW))?;
            for (byte, digits) in place.iter_mut().zip(digits.as_bytes().chunks(2)) {
                *byte = u8::from_str_radix(std::str::from_utf8(digits).ok()?, 16).ok()?;
            }
        }
        report.memories.push(memory);
    }
    // A text that spells something otherwise than a report does differs from the text of what was read.
    let is_whole = report.made.iter().all(|it| it.len() == count);
    (is_whole && report.text(configuration) == text).then_some(report)
}
