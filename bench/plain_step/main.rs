//! Runs the scripts of a configuration file over several boards, turn by turn, and prints the
//! report, as `vme step` does; of what is refused it says less.
//!
//! usage: plain_step [--events] FILE
//!
//! `--events` prints the number of events instead.

mod file;
mod line;
mod memory;
mod report;
mod run;

use std::io::{self, BufWriter, Write};
use std::process::ExitCode;

const OUTPUT_CHUNK: usize = 64 * 1024;

fn print(world: &run::World) -> io::Result<()> {
    let mut output = BufWriter::with_capacity(OUTPUT_CHUNK, io::stdout().lock());
    report::write(&mut output, world)?;
    output.flush()
}

fn events(world: &run::World) -> u64 {
    let made = |board: &memory::Board| board.made.iter().sum::<u64>();
    world.machine.arbiter.steps + world.machine.boards.iter().map(made).sum::<u64>()
}

fn fault(status: u8, what: impl std::fmt::Display) -> ExitCode {
    eprintln!("plain_step: {what}");
    ExitCode::from(status)
}

fn main() -> ExitCode {
    let words: Vec<String> = std::env::args().skip(1).collect();
    let (counts, path) = match words.as_slice() {
        [path] => (false, path),
        [word, path] if word == "--events" => (true, path),
        _ => return fault(2, "usage: plain_step [--events] FILE"),
    };
    let text = match std::fs::read_to_string(path) {
        Ok(text) => text,
        Err(error) => return fault(3, error),
    };
    let file = match file::read(&text) {
        Ok(file) => file,
        Err(what) => return fault(2, what),
    };
    let world = run::run(file);
    if counts {
        println!("{}", events(&world));
        return ExitCode::SUCCESS;
    }
    if let Err(error) = print(&world) {
        return fault(3, error);
    }
    let replies = world.processors.iter().flat_map(|processor| &processor.replies);
    let all_good = replies.map(|(_, reply)| reply).all(run::Reply::is_good);
    ExitCode::from(u8::from(!all_good))
}
