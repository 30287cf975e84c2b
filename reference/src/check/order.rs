//! The order of lines that a report forces: a line reads a value after a line that writes it, and before the next write.

use super::supplies::{Access, Byte, Left, Supplies};
use crate::configuration::Configuration;
use crate::lines::Line;
use crate::replies::digits;
use crate::report::Report;
use std::collections::{BTreeMap, BTreeSet};

/// A set of nodes.
#[derive(Clone, PartialEq, Eq)]
struct Nodes(Vec<u64>);

impl Nodes {
    fn none(count: usize) -> Nodes {
        Nodes(vec![0; count.div_ceil(64)])
    }

    fn has(&self, node: usize) -> bool {
        self.0[node / 64] >> (node % 64) & 1 == 1
    }

    fn add(&mut self, node: usize) {
        self.0[node / 64] |= 1 << (node % 64);
    }

    fn add_all(&mut self, others: &Nodes) {
        self.0.iter_mut().zip(&others.0).for_each(|(it, other)| *it |= other);
    }

    fn keep(&mut self, others: &Nodes) {
        self.0.iter_mut().zip(&others.0).for_each(|(it, other)| *it &= other);
    }

    fn all(&self) -> impl Iterator<Item = usize> + '_ {
        (0..64 * self.0.len()).filter(|it| self.has(*it))
    }
}

/// The node of the memory before all lines, and that of the memory after them.
const START: usize = 0;
const END: usize = 1;

/// The nodes by processor, line and datum, numbered in this order.
type Places = BTreeMap<(usize, usize, usize), usize>;

/// The access of a node to a byte.
struct Visit {
    node: usize,
    read: Option<u8>,
    left: Left,
}

/// An order of nodes: a node is a line, or a datum of a block that may be split.
pub struct Order {
    /// By node, those before it.
    before: Vec<Nodes>,
    /// By processor and line, the lines of others that are before it: the processor and the line.
    needed: Vec<Vec<Vec<(usize, usize)>>>,
    is_possible: bool,
}

impl Order {
    pub fn of(configuration: &Configuration, report: &Report, supplies: &Supplies) -> Order {
        let places = places(configuration, supplies);
        let count = places.len() + 2;
        let mut order = Order { before: vec![Nodes::none(count); count], needed: Vec::new(), is_possible: true };
        order.add_scripts(&places);
        let visits: Vec<Vec<Visit>> =
            supplies.bytes.iter().map(|(at, it)| visits(report, &places, *at, it)).collect();
        let queues: Vec<Queue> =
            (1..=configuration.mailboxes.len()).map(|it| queue(configuration, report, &places, it)).collect();
        let mut is_new = true;
        while order.is_possible && is_new {
            is_new = false;
            visits.iter().for_each(|it| is_new |= order.saturate(it));
            queues.iter().for_each(|it| is_new |= order.saturate_queue(it));
        }
        order.note_needed(configuration, &places);
        order
    }

    /// Adds the order of each script, between the start and the end.
    fn add_scripts(&mut self, places: &Places) {
        let nodes: Vec<(usize, usize)> = places.iter().map(|(place, node)| (place.0, *node)).collect();
        for (_, node) in &nodes {
            self.add(START, *node);
            self.add(*node, END);
        }
        for pair in nodes.windows(2).filter(|it| it[0].0 == it[1].0) {
            self.add(pair[0].1, pair[1].1);
        }
    }

    /// Whether the report's values force no cycle.
    pub fn is_possible(&self) -> bool {
        self.is_possible
    }

    /// Whether each line that must come before a processor's line has ended.
    pub fn allows(&self, who: usize, line: usize, current_line: impl Fn(usize) -> usize) -> bool {
        self.needed[who][line].iter().all(|it| current_line(it.0) > it.1)
    }

    /// Puts one node before another. Returns whether it was not there.
    fn add(&mut self, first: usize, second: usize) -> bool {
        if self.before[second].has(first) {
            return false;
        }
        if first == second || self.before[first].has(second) {
            self.is_possible = false;
            return false;
        }
        let mut new = self.before[first].clone();
        new.add(first);
        for node in 0..self.before.len() {
            if node == second || self.before[node].has(second) {
                self.before[node].add_all(&new);
            }
        }
        true
    }

    /// Adds what the reads of one byte force. Returns whether that is new.
    fn saturate(&mut self, visits: &[Visit]) -> bool {
        let mut is_new = false;
        for read in visits {
            if let Some(value) = read.read {
                is_new |= self.saturate_read(read.node, value, visits);
            }
        }
        is_new
    }

    /// Adds what one read of a value forces: it comes after one of the lines that may write the value, and no line that
    /// writes another value comes between the two.
    fn saturate_read(&mut self, read: usize, value: u8, visits: &[Visit]) -> bool {
        let others = visits.iter().filter(|it| it.node != read && it.left.is_other(value));
        let others: Vec<usize> = others.map(|it| it.node).collect();
        let writers = self.writers(read, value, visits, &others);
        let Some(before_read) = self.before_all(&writers) else {
            self.is_possible = false;
            return false;
        };
        let mut is_new = false;
        for node in before_read.all() {
            is_new |= self.add(node, read);
        }
        for other in others {
            if writers.iter().all(|it| self.before[other].has(*it)) {
                is_new |= self.add(read, other);
            }
            if writers.len() == 1 && self.before[read].has(other) {
                is_new |= self.add(other, writers[0]);
            }
        }
        is_new && self.is_possible
    }

    /// The nodes from which a read may have its value.
    fn writers(&self, read: usize, value: u8, visits: &[Visit], others: &[usize]) -> Vec<usize> {
        let is_between = |writer: usize, it: usize| self.before[it].has(writer) && self.before[read].has(it);
        let writers = visits.iter().filter(|it| it.node != read && it.left.may_be(value)).map(|it| it.node);
        let writers = writers.filter(|it| !self.before[*it].has(read));
        writers.filter(|writer| !others.iter().any(|it| is_between(*writer, *it))).collect()
    }

    /// Whichever of some nodes a read follows, these nodes come before it. Nothing if there is none to follow.
    fn before_all(&self, writers: &[usize]) -> Option<Nodes> {
        let up_to = |node: usize| {
            let mut nodes = self.before[node].clone();
            nodes.add(node);
            nodes
        };
        let (first, rest) = writers.split_first()?;
        let mut common = up_to(*first);
        rest.iter().for_each(|it| common.keep(&up_to(*it)));
        Some(common)
    }

    /// Adds that words are taken in the order in which they are put. Returns whether that is new.
    fn saturate_queue(&mut self, queue: &Queue) -> bool {
        let mut is_new = false;
        for (put, take) in &queue.taken {
            is_new |= self.add(*put, *take);
            for left in &queue.left {
                is_new |= self.add(*put, *left);
            }
            for (other_put, other_take) in &queue.taken {
                if self.before[*other_put].has(*put) {
                    is_new |= self.add(*take, *other_take);
                }
                if self.before[*other_take].has(*take) {
                    is_new |= self.add(*put, *other_put);
                }
            }
        }
        is_new && self.is_possible
    }

    fn note_needed(&mut self, configuration: &Configuration, places: &Places) {
        self.needed = configuration.boards.iter().map(|it| vec![Vec::new(); it.script.len()]).collect();
        for ((who, line, _), node) in places {
            // Of each other processor the last line before this one.
            let mut last = BTreeMap::new();
            for (other, line, _) in places.iter().filter(|it| self.before[*node].has(*it.1)).map(|it| *it.0) {
                last.insert(other, line);
            }
            last.remove(who);
            self.needed[*who][*line].extend(last);
        }
    }
}

/// The lines that access a byte of several processors or a mailbox, as nodes.
fn places(configuration: &Configuration, supplies: &Supplies) -> Places {
    let mut all = BTreeSet::new();
    for ((board, _), byte) in &supplies.bytes {
        for (who, accesses) in &byte.accesses {
            all.extend(accesses.iter().map(|it| place(configuration, *board, *who, it)));
        }
    }
    for (who, entry) in configuration.boards.iter().enumerate() {
        let lines = (0..).zip(&entry.script);
        all.extend(lines.filter(|it| matches!(it.1 .1, Line::Put(..) | Line::Take(_))).map(|it| (who, it.0, 0)));
    }
    all.into_iter().zip(2..).collect()
}

/// The nodes of a mailbox whose word no other put has.
#[derive(Default)]
struct Queue {
    /// The put and the take of a word.
    taken: Vec<(usize, usize)>,
    /// The puts of words that nobody takes.
    left: Vec<usize>,
}

fn queue(configuration: &Configuration, report: &Report, places: &Places, number: usize) -> Queue {
    let (mut puts, mut takes) = (Vec::new(), Vec::new());
    for (who, entry) in configuration.boards.iter().enumerate() {
        for (line, ((_, it), reply)) in entry.script.iter().zip(&report.replies[who]).enumerate() {
            let node = places.get(&(who, line, 0)).copied().unwrap_or(START);
            match it {
                Line::Put(it, word) if *it == number && reply == "put" => puts.push((digits(word), node)),
                Line::Take(it) if *it == number => takes.extend(reply.strip_prefix("took ").map(|it| (it, node))),
                _ => {}
            }
        }
    }
    let mut queue = Queue::default();
    for (word, put) in puts.iter().filter(|put| puts.iter().filter(|it| it.0 == put.0).count() == 1) {
        match takes.iter().find(|it| it.0 == word) {
            Some((_, take)) => queue.taken.push((*put, *take)),
            None => queue.left.push(*put),
        }
    }
    queue
}

/// A line, or a datum of it if the board's own processor may come between its data.
fn place(configuration: &Configuration, board: usize, who: usize, access: &Access) -> (usize, usize, usize) {
    let has_local = configuration.boards[board].script.iter().any(|(_, line)| matches!(line, Line::Local(_)));
    (who, access.line, if board != who && has_local { access.datum } else { 0 })
}

fn visits(report: &Report, places: &Places, at: (usize, u64), byte: &Byte) -> Vec<Visit> {
    let last = report.memories[at.0][at.1 as usize];
    let mut visits = vec![
        Visit { node: START, read: None, left: Left::Value(0) },
        Visit { node: END, read: Some(last), left: Left::Same },
    ];
    for (who, accesses) in &byte.accesses {
        for it in accesses {
            let node = places.get(&(*who, it.line, it.datum)).or_else(|| places.get(&(*who, it.line, 0)));
            visits.push(Visit { node: *node.expect("each access has a node"), read: it.read, left: it.left });
        }
    }
    visits
}
