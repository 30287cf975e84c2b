//! What inputs cover: forms of lines, codes, byte locations, replies and refusals, each with a count.

use crate::configuration::Configuration;
use crate::cycles;
use crate::engines;
use crate::exit::{Exit, MARKED};
use crate::lines::{self, Line};
use crate::locations;
use crate::reading;
use crate::requests::{Action, Function, Plan};
use std::collections::BTreeMap;

#[derive(Default)]
pub struct Coverage(BTreeMap<String, usize>);

impl Coverage {
    pub fn ended(self) -> Exit {
        let lines: String = self.0.iter().map(|(what, count)| format!("{count} {what}\n")).collect();
        Exit::report(lines, true)
    }

    /// The input of `cycles`.
    pub fn lines(&mut self, input: &[u8]) {
        for line in lines::split(input) {
            if let Ok(Some(line)) = lines::parse(line) {
                self.line(&line);
            }
        }
        let output = cycles::answer(input).output;
        for line in String::from_utf8_lossy(&output).lines().filter(|it| !it.starts_with("am=")) {
            self.reply(line);
        }
    }

    /// A file by `step`.
    pub fn file(&mut self, file: &[u8]) {
        let ended = engines::step(file);
        if ended.status > MARKED {
            self.refusal(&ended.error);
            return;
        }
        if let Ok(configuration) = reading::configuration(file) {
            self.scripts(&configuration);
        }
        for line in String::from_utf8_lossy(&ended.output).lines() {
            if let Some((_, reply)) = line.split_once(' ').filter(|it| it.0.contains(':')) {
                self.reply(reply);
            }
        }
    }

    fn scripts(&mut self, configuration: &Configuration) {
        for (_, line) in configuration.boards.iter().flat_map(|it| &it.script) {
            self.line(line);
        }
    }

    fn line(&mut self, line: &Line) {
        match line {
            Line::Bus(Ok(plan)) => self.plan(plan),
            Line::Bus(Err(_)) => {}
            Line::Local(command) => self.action("local", &command.action),
            Line::Await(..) => self.count("form await"),
            Line::Lock(_) => self.count("form lock"),
            Line::Unlock(_) => self.count("form unlock"),
            Line::Put(..) => self.count("form put"),
            Line::Take(_) => self.count("form take"),
        }
    }

    fn plan(&mut self, plan: &Plan) {
        self.count(&format!("code {:02x}", plan.code.code));
        self.action(if plan.code.is_block() { "block" } else { "single" }, &plan.data[0]);
        if !plan.code.is_wide() {
            for datum in 0..plan.data.len() {
                let address = u64::from(plan.address) + (datum * plan.length) as u64;
                let row = locations::look_up(address, plan.length).expect("a lawful request has locations");
                self.count(&format!("location {}-{}", row.first, row.first as usize + row.length - 1));
            }
        }
    }

    fn action(&mut self, port: &str, action: &Action) {
        let name = match action {
            Action::Read => "read",
            Action::Write(_) => "write",
            Action::Modify(Function::Set) => "set",
            Action::Modify(Function::Exchange(_)) => "xchg",
            Action::Modify(Function::Add(_)) => "add",
            Action::Modify(Function::Compare { .. }) => "cas",
        };
        self.count(&format!("form {port} {name}"));
    }

    fn reply(&mut self, reply: &str) {
        let words: Vec<&str> = reply.split(' ').collect();
        match words[..] {
            ["refused", refusal] => self.count(refusal),
            ["line", "refused", refusal] => self.count(&format!("line {refusal}")),
            ["berr", _, _] => self.count("reply berr with bytes"),
            [word, ..] => self.count(&format!("reply {word}")),
            [] => {}
        }
    }

    /// A file's refusal, without the slot and the line of a script's.
    fn refusal(&mut self, error: &str) {
        let words: Vec<&str> = error.trim_end().split(' ').collect();
        match words[..] {
            [_, "C14", _, _, _, _, fault] => self.count(&format!("C14 {fault}")),
            _ => self.count(&words[1..].join(" ")),
        }
    }

    fn count(&mut self, what: &str) {
        *self.0.entry(what.to_string()).or_default() += 1;
    }
}
