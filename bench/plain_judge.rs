//! Reads a value change dump with the names of `bendrika trace`, keeps the levels of the lines, and counts the pairs of samples that
//! break one of eight rules of the handshake: a measure of what reading a dump takes. It judges no answers.
//!
//! usage: plain_judge FILE

use std::collections::HashMap;
use std::io::Read;

/// The lines of a sample.
#[derive(Clone, Copy, Default)]
struct Sample {
    low: [bool; 6],
    am: u64,
    address: u64,
    data: [u64; 4],
}

const LINES: [&str; 6] = ["as_n", "ds1_n", "ds0_n", "dtack_n", "berr_n", "write_n"];
const VECTORS: [&str; 6] = ["am", "a", "d31_24", "d23_16", "d15_08", "d07_00"];

fn broken(a: &Sample, b: &Sample) -> bool {
    let [address, upper, lower, acknowledge, error, write] = [0, 1, 2, 3, 4, 5];
    let strobe = |s: &Sample| s.low[upper] || s.low[lower];
    let answer = |s: &Sample| s.low[acknowledge] || s.low[error];
    let falls = !strobe(a) && strobe(b);
    let rises = strobe(a) && !strobe(b);
    (strobe(b) && !b.low[address])
        || (a.low[address] && b.low[address] && !answer(a) && (a.am, a.address) != (b.am, b.address))
        || (strobe(a) && strobe(b) && a.low[write] != b.low[write])
        || (rises && !answer(a))
        || (falls && answer(a))
        || (!answer(a) && answer(b) && !strobe(b))
        || (answer(a) && !answer(b) && strobe(b))
        || (b.low[acknowledge] && b.low[error])
}

fn main() {
    let mut file = std::fs::File::open(std::env::args().nth(1).expect("FILE")).expect("a file");
    let mut text = Vec::new();
    file.read_to_end(&mut text).expect("a file");
    let mut names: HashMap<Vec<u8>, usize> = HashMap::new();
    let (mut now, mut last) = (Sample::default(), Sample::default());
    let (mut samples, mut errors, mut body) = (0u64, 0u64, false);
    for line in text.split(|c| *c == b'\n') {
        if !body {
            let words: Vec<&[u8]> = line.split(|c| *c == b' ').collect();
            if words.len() > 4 && words[0] == b"$var" {
                let name = std::str::from_utf8(words[4]).unwrap_or("");
                let place = LINES.iter().chain(VECTORS.iter()).position(|it| *it == name);
                if let Some(place) = place {
                    names.insert(words[3].to_vec(), place);
                }
            }
            body = line.starts_with(b"$enddefinitions");
            continue;
        }
        match line {
            [b'#', ..] => {
                samples += 1;
                errors += u64::from(broken(&last, &now));
                last = now;
            }
            [b'b', rest @ ..] => {
                let Some(space) = rest.iter().position(|c| *c == b' ') else { continue };
                let Some(place) = names.get(&rest[space + 1..]) else { continue };
                let value = rest[..space].iter().fold(0u64, |n, c| n << 1 | u64::from(*c == b'1'));
                match place - LINES.len() {
                    0 => now.am = value,
                    1 => now.address = value,
                    lane => now.data[lane - 2] = value,
                }
            }
            [level, id @ ..] => {
                if let Some(place) = names.get(id) {
                    if *place < LINES.len() {
                        now.low[*place] = *level == b'0';
                    }
                }
            }
            [] => {}
        }
    }
    println!("{samples} samples, {errors} broken");
}
