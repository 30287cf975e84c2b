//! What `vme_port_bench` does, in plain Rust: threads that give commands to one counter behind a
//! mutex of the standard library, which counts the counter's steps and refuses one more at the last
//! count.
//!
//! `--cfg bare` leaves the commands and the count of steps out: a call adds one to a number.
//!
//! usage: mutex THREADS CALLS

use std::process::ExitCode;
use std::sync::{Mutex, MutexGuard, PoisonError};
use std::thread;

/// The most threads.
const MOST_THREADS: usize = 21;

/// No step can be counted any more.
struct Spent;

/// What a counter is told.
#[cfg(not(bare))]
#[allow(dead_code)]
enum Command {
    Bump,
    Show,
}

/// What the mutex holds.
#[cfg(not(bare))]
#[derive(Default)]
struct Shared {
    number: u64,
    steps: u64,
}

#[cfg(not(bare))]
impl Shared {
    /// Counts a step, and does what the command says.
    fn apply(&mut self, command: &Command) -> Result<u64, Spent> {
        self.steps = self.steps.checked_add(1).ok_or(Spent)?;
        let number = self.number;
        match command {
            Command::Bump => self.number = number.wrapping_add(1),
            Command::Show => {}
        }
        Ok(number)
    }

    fn bump(&mut self) -> Result<u64, Spent> {
        self.apply(&Command::Bump)
    }

    fn steps(&self, _made: u64) -> u64 {
        self.steps
    }
}

/// What the mutex holds.
#[cfg(bare)]
#[derive(Default)]
struct Shared {
    number: u64,
}

#[cfg(bare)]
impl Shared {
    fn bump(&mut self) -> Result<u64, Spent> {
        let number = self.number;
        self.number = number.wrapping_add(1);
        Ok(number)
    }

    fn steps(&self, made: u64) -> u64 {
        made
    }
}

fn lock(shared: &Mutex<Shared>) -> MutexGuard<'_, Shared> {
    shared.lock().unwrap_or_else(PoisonError::into_inner)
}

/// Makes so many calls, and answers how many were not refused.
fn work(shared: &Mutex<Shared>, calls: u64) -> u64 {
    let mut made = 0;
    for _ in 0..calls {
        if lock(shared).bump().is_ok() {
            made += 1;
        }
    }
    made
}

/// Starts the threads at the same time, and answers how many calls they made together.
fn work_all(shared: &Mutex<Shared>, threads: usize, calls: u64) -> Option<u64> {
    thread::scope(|scope| {
        let workers: Vec<_> = (0..threads)
            .map(|_| scope.spawn(|| work(shared, calls)))
            .collect();
        workers.into_iter().map(|worker| worker.join().ok()).sum()
    })
}

/// Reads the number of threads and of the calls of each.
fn arguments() -> Option<(usize, u64)> {
    let words: Vec<String> = std::env::args().skip(1).collect();
    let [threads, calls] = words.as_slice() else {
        return None;
    };
    let threads = threads.parse().ok()?;
    let calls = calls.parse().ok()?;
    (1..=MOST_THREADS)
        .contains(&threads)
        .then_some((threads, calls))
}

fn main() -> ExitCode {
    let Some((threads, calls)) = arguments() else {
        eprintln!("mutex: usage: mutex THREADS CALLS, with 1 to {MOST_THREADS} threads");
        return ExitCode::from(2);
    };
    let shared = Mutex::new(Shared::default());
    let Some(made) = work_all(&shared, threads, calls) else {
        eprintln!("mutex: a thread failed");
        return ExitCode::from(3);
    };
    let shared = lock(&shared);
    println!("{} {}", shared.number, shared.steps(made));
    ExitCode::SUCCESS
}
