//! The independent reference of `vme`: its three commands again, from the tables of the specification, and what
//! compares the two. The page beside the sources says how to use it.

mod arbiter;
mod boards;
mod check;
mod codes;
mod configuration;
mod coverage;
mod cycles;
mod engines;
mod exit;
mod generate;
mod keys;
mod lines;
mod locations;
mod machine;
mod mailboxes;
mod random;
mod reading;
mod replies;
mod report;
mod requests;
mod tasks;
mod toml;

use exit::Exit;
use std::io::{Read, Write};
use std::process::ExitCode;

fn main() -> ExitCode {
    let words: Vec<String> = std::env::args().skip(1).collect();
    let words: Vec<&str> = words.iter().map(String::as_str).collect();
    let mut ended = command(&words);
    let mut output = std::io::stdout().lock();
    if output.write_all(&ended.output).and_then(|()| output.flush()).is_err() {
        ended = Exit::fault("write");
    }
    eprint!("{}", ended.error);
    ExitCode::from(ended.status)
}

fn command(words: &[&str]) -> Exit {
    match words {
        ["cycles"] => with_bytes(&mut std::io::stdin().lock(), cycles::answer),
        ["step", file] => with_file(file, engines::step),
        ["run", file] => with_file(file, |it| engines::run(it, 0)),
        ["run", "--seed", seed, file] => match seed.parse() {
            Ok(seed) => with_file(file, |it| engines::run(it, seed)),
            Err(_) => Exit::usage(),
        },
        ["check", report, file] => with_file(report, |report| with_file(file, |file| check::check(report, file))),
        ["coverage", "lines"] => with_bytes(&mut std::io::stdin().lock(), |input| {
            let mut coverage = coverage::Coverage::default();
            coverage.lines(input);
            coverage.ended()
        }),
        ["coverage", "files", files @ ..] => coverage_of(files),
        ["generate", "lines", count, seed] => generated_lines(count, seed),
        ["generate", kind, count, seed, folder, sources @ ..] => generated_files(kind, count, seed, folder, sources),
        _ => Exit::usage(),
    }
}

fn coverage_of(files: &[&str]) -> Exit {
    let mut coverage = coverage::Coverage::default();
    for file in files {
        match std::fs::read(file) {
            Ok(file) => coverage.file(&file),
            Err(_) => return Exit::fault("read"),
        }
    }
    coverage.ended()
}

fn generated_lines(count: &str, seed: &str) -> Exit {
    let (Ok(count), Ok(seed)) = (count.parse(), seed.parse()) else {
        return Exit::usage();
    };
    Exit::report(generate::request_lines(count, seed), true)
}

/// Writes files `0.toml` and so on into a folder.
fn generated_files(kind: &str, count: &str, seed: &str, folder: &str, sources: &[&str]) -> Exit {
    let (Ok(count), Ok(seed)) = (count.parse::<usize>(), seed.parse()) else {
        return Exit::usage();
    };
    let Ok(sources) = sources.iter().map(std::fs::read).collect::<Result<Vec<_>, _>>() else {
        return Exit::fault("read");
    };
    for number in 0..count {
        let Some(file) = generate::file(kind, number, seed, &sources) else {
            return Exit::usage();
        };
        if std::fs::write(format!("{folder}/{number}.toml"), file).is_err() {
            return Exit::fault("write");
        }
    }
    Exit::report(Vec::new(), true)
}

fn with_file(path: &str, work: impl FnOnce(&[u8]) -> Exit) -> Exit {
    match std::fs::File::open(path) {
        Ok(mut file) => with_bytes(&mut file, work),
        Err(_) => Exit::fault("read"),
    }
}

fn with_bytes(source: &mut dyn Read, work: impl FnOnce(&[u8]) -> Exit) -> Exit {
    let mut bytes = Vec::new();
    match source.read_to_end(&mut bytes) {
        Ok(_) => work(&bytes),
        Err(_) => Exit::fault("read"),
    }
}
