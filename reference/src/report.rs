//! The text of a report.

use crate::configuration::Configuration;
use crate::exit::Exit;
use crate::machine::Machine;
use crate::replies::{digits, is_good, LineReply};

pub const ROW: usize = 16;

/// What a report says, its replies as texts.
#[derive(Clone, PartialEq, Eq, Debug)]
pub struct Report {
    /// By processor and line.
    pub replies: Vec<Vec<String>>,
    /// By board and processor.
    pub made: Vec<Vec<u64>>,
    /// By board.
    pub memories: Vec<Vec<u8>>,
}

impl Report {
    pub fn of(machine: &Machine) -> Report {
        let boards = 0..machine.configuration.boards.len();
        Report {
            replies: boards.map(|board| replies(machine, board)).collect(),
            made: machine.made.clone(),
            memories: machine.boards.iter().map(|it| it.bytes.clone()).collect(),
        }
    }

    pub fn ended(&self, configuration: &Configuration) -> Exit {
        let is_clean = self.replies.iter().flatten().all(|it| is_good(it));
        Exit::report(self.text(configuration), is_clean)
    }

    pub fn text(&self, configuration: &Configuration) -> String {
        let mut text = String::new();
        for (board, replies) in configuration.boards.iter().zip(&self.replies) {
            for ((number, _), reply) in board.script.iter().zip(replies) {
                text += &format!("{}:{number} {reply}\n", board.slot);
            }
        }
        for (board, made) in configuration.boards.iter().zip(&self.made) {
            let counts: String = made.iter().map(|it| format!(" {it}")).collect();
            text += &format!("board {} steps {} made{counts}\n", board.slot, made.iter().sum::<u64>());
        }
        for (board, memory) in configuration.boards.iter().zip(&self.memories) {
            for (row, bytes) in memory.chunks(ROW).enumerate() {
                if bytes.iter().any(|it| *it != 0) {
                    text += &format!("mem {} {:08x} {}\n", board.slot, row * ROW, digits(bytes));
                }
            }
        }
        text
    }
}

/// The replies of a processor's lines; those that have not ended are unfinished.
fn replies(machine: &Machine, board: usize) -> Vec<String> {
    let lines = machine.configuration.boards[board].script.len();
    let ended = machine.replies[board].iter().map(LineReply::text);
    let unfinished = std::iter::repeat_with(|| LineReply::Unfinished.text());
    ended.chain(unfinished).take(lines).collect()
}
