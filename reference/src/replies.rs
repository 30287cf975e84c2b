//! The replies of lines, and their texts.

use crate::requests::{Outcome, Refusal};

/// How a line of a script ends.
#[derive(Clone, PartialEq, Eq, Debug)]
pub enum LineReply {
    Transfer(Outcome),
    Refused(Refusal),
    Met,
    Timeout,
    Taken,
    Busy,
    Put,
    Took(Vec<u8>),
    Full,
    Empty,
    Spent,
    Unfinished,
}

impl LineReply {
    pub fn text(&self) -> String {
        match self {
            LineReply::Transfer(Outcome::Read(bytes)) => format!("read {}", digits(bytes)),
            LineReply::Transfer(Outcome::Done) => "done".into(),
            LineReply::Transfer(Outcome::Old(bytes)) => format!("old {}", digits(bytes)),
            LineReply::Transfer(Outcome::Berr { count, bytes }) if bytes.is_empty() => format!("berr {count}"),
            LineReply::Transfer(Outcome::Berr { count, bytes }) => format!("berr {count} {}", digits(bytes)),
            LineReply::Refused(refusal) => format!("refused K{}", *refusal as u8),
            LineReply::Met => "met".into(),
            LineReply::Timeout => "timeout".into(),
            LineReply::Taken => "taken".into(),
            LineReply::Busy => "busy".into(),
            LineReply::Put => "put".into(),
            LineReply::Took(word) => format!("took {}", digits(word)),
            LineReply::Full => "full".into(),
            LineReply::Empty => "empty".into(),
            LineReply::Spent => "spent".into(),
            LineReply::Unfinished => "unfinished".into(),
        }
    }
}

/// Whether a reply with this text leaves the status at 0.
pub fn is_good(text: &str) -> bool {
    let word = text.split(' ').next().unwrap_or_default();
    matches!(word, "done" | "read" | "old" | "met" | "taken" | "put" | "took")
}

pub fn digits(bytes: &[u8]) -> String {
    bytes.iter().map(|it| format!("{it:02x}")).collect()
}
