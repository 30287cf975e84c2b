//! Inputs drawn at random: request lines, configurations for `step` and for `run`, and damaged files. A kind, a
//! number and a seed determine each of them.

mod damage;
mod draft;
mod faults;
mod files;
mod lines;

use crate::random::Random;

/// The request lines of a seed.
pub fn request_lines(count: usize, seed: u64) -> Vec<u8> {
    let mut random = Random::new(seed);
    let aims = lines::Aims::one_board();
    let mut text = Vec::new();
    for number in 1..=count {
        text.extend(lines::any(&mut random, &aims, &crate::lines::CYCLES));
        let is_last = number == count;
        let end: &[u8] = match random.below(20) {
            0 => b"\r\n",
            1..=5 if is_last => b"\r",
            6..=12 if is_last => b"",
            _ => b"\n",
        };
        text.extend(end);
    }
    text
}

/// One file of a kind; nothing where there is no such kind. `sources` are further files to damage.
pub fn file(kind: &str, number: usize, seed: u64, sources: &[Vec<u8>]) -> Option<Vec<u8>> {
    let mut random = Random::new(seed ^ (number as u64) << 32);
    match kind {
        "step" => Some(files::by_turns(&mut random).into_bytes()),
        "run" => Some(files::on_threads(&mut random).into_bytes()),
        "small" => Some(files::small(&mut random).into_bytes()),
        "damaged" => {
            let text = source(&mut random, sources);
            let other = source(&mut random, sources);
            Some(damage::damaged(&mut random, text, &other))
        }
        _ => None,
    }
}

fn source(random: &mut Random, sources: &[Vec<u8>]) -> Vec<u8> {
    if sources.is_empty() || random.one_in(2) {
        return files::by_turns(random).into_bytes();
    }
    random.pick(sources)
}
