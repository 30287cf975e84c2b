//! `step` and `run`: a configuration executed by its turns, or by turns drawn at random.

use crate::configuration::{self, Configuration};
use crate::exit::Exit;
use crate::machine::Machine;
use crate::random::Random;
use crate::reading;
use crate::report::Report;

pub fn step(file: &[u8]) -> Exit {
    with_configuration(file, |configuration| {
        let mut machine = Machine::new(configuration);
        for (board, turns) in &configuration.schedule {
            for _ in 0..*turns {
                machine.turn(*board);
            }
        }
        for _ in 0..configuration.rounds {
            for board in 0..configuration.boards.len() {
                machine.turn(board);
            }
        }
        Report::of(&machine).ended(configuration)
    })
}

/// A random interleaving of the processors, up to the ends of their scripts. Each turn is drawn from the processors
/// that have lines left.
pub fn run(file: &[u8], seed: u64) -> Exit {
    with_configuration(file, |configuration| {
        let mut random = Random::new(seed);
        let mut machine = Machine::new(configuration);
        let mut current_line: Vec<usize> = (0..configuration.boards.len()).collect();
        while !current_line.is_empty() {
            let drawn = random.below(current_line.len());
            machine.turn(current_line[drawn]);
            if machine.is_done(current_line[drawn]) {
                current_line.swap_remove(drawn);
            }
        }
        Report::of(&machine).ended(configuration)
    })
}

fn with_configuration(file: &[u8], work: impl FnOnce(&Configuration) -> Exit) -> Exit {
    if file.len() > configuration::MOST_BYTES {
        return Exit::fault("too long");
    }
    match reading::configuration(file) {
        Ok(configuration) => work(&configuration),
        Err(refused) => Exit::refused(refused),
    }
}
