//! The arbiter: one holder of the bus at most, and the slots that wait for it.

#[derive(Clone, Copy, PartialEq, Eq, Debug)]
pub enum Command {
    Ask { level: u32 },
    Look,
    Done,
}

#[derive(Clone, Copy, PartialEq, Eq, Debug)]
pub enum Reply {
    Granted,
    Waiting,
    Freed,
    Denied,
}

const LEVELS: u32 = 4;
const TOP_LEVEL: u32 = LEVELS - 1;
const SLOTS: u32 = 21;

#[derive(Clone, Debug)]
pub struct Arbiter {
    holder: Option<u32>,
    /// Pairs of level and slot.
    pending: Vec<(u32, u32)>,
    is_rotating: bool,
    /// The level at which a rotating arbiter's next grant begins.
    first_level: u32,
}

impl Arbiter {
    pub fn new(is_rotating: bool) -> Arbiter {
        Arbiter { holder: None, pending: Vec::new(), is_rotating, first_level: TOP_LEVEL }
    }

    pub fn step(&mut self, slot: u32, command: Command) -> Reply {
        let holds = self.holder == Some(slot);
        let pends = self.pending.iter().any(|it| it.1 == slot);
        match command {
            Command::Ask { level } if level >= LEVELS || !(1..=SLOTS).contains(&slot) || holds || pends => {
                Reply::Denied
            }
            Command::Ask { level } if self.holder.is_none() => {
                self.grant(level, slot);
                Reply::Granted
            }
            Command::Ask { level } => {
                self.pending.push((level, slot));
                Reply::Waiting
            }
            Command::Look if holds => Reply::Granted,
            Command::Look if pends => Reply::Waiting,
            Command::Look => Reply::Denied,
            Command::Done if holds => {
                self.holder = None;
                self.grant_next();
                Reply::Freed
            }
            Command::Done => Reply::Denied,
        }
    }

    fn grant(&mut self, level: u32, slot: u32) {
        self.holder = Some(slot);
        self.pending.retain(|it| it.1 != slot);
        self.first_level = below(level);
    }

    fn grant_next(&mut self) {
        let mut level = if self.is_rotating { self.first_level } else { TOP_LEVEL };
        for _ in 0..LEVELS {
            let on_level = self.pending.iter().filter(|it| it.0 == level);
            if let Some(slot) = on_level.map(|it| it.1).min() {
                return self.grant(level, slot);
            }
            level = below(level);
        }
    }
}

/// The level below one; the top level comes below 0.
fn below(level: u32) -> u32 {
    (level + LEVELS - 1) % LEVELS
}
