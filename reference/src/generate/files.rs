//! Configurations drawn at random: lawful ones, and for `step` others with some faults.

use super::draft::{get, set, Board, Draft, Table};
use super::faults;
use super::lines::{self, Aim, Aims};
use crate::codes::Space;
use crate::configuration::Refused;
use crate::random::Random;
use crate::reading;

const ALL: [&str; 14] = ["r", "w", "br", "bw", "bf", "m", "lr", "lw", "lm", "await", "lock", "unlock", "put", "take"];

/// How large a configuration is, and how close its lines are to each other.
#[derive(Clone, Copy, PartialEq)]
enum Extent {
    /// Boards of all sizes, and lines all over them.
    Wide,
    /// Lines on a few bytes of one or two boards.
    Close,
    /// The same, with so few lines that a test can visit all interleavings.
    Small,
}

/// A configuration for `step`.
pub fn by_turns(random: &mut Random) -> String {
    let mut draft = lawful(random, Extent::Wide);
    turns(random, &mut draft);
    let faults = random.pick(&[0, 0, 0, 0, 0, 1, 1, 2]);
    for _ in 0..faults {
        faults::put_in(random, &mut draft);
    }
    draft.text(random)
}

/// A lawful configuration for `run`, whose processors meet on a few bytes.
pub fn on_threads(random: &mut Random) -> String {
    lawful(random, Extent::Close).text(random)
}

/// A lawful configuration with few lines.
pub fn small(random: &mut Random) -> String {
    lawful(random, Extent::Small).text(random)
}

fn lawful(random: &mut Random, extent: Extent) -> Draft {
    let mut draft = Draft::default();
    let aims = boards(random, &mut draft, extent);
    if random.one_in(2) {
        let count = random.pick(&[1, 1, 1, 2, 3]);
        for _ in 0..count {
            mailbox(random, &mut draft, &aims);
        }
    }
    let tries = match extent {
        Extent::Small => random.pick(&[1, 2]),
        Extent::Wide if draft.mailboxes.is_empty() => random.pick(&[1, 2, 3, 5, 20]),
        Extent::Close if draft.mailboxes.is_empty() => random.pick(&[1, 2, 3, 5, 1000]),
        // With many failed attempts of several lines the search of `check` takes long.
        Extent::Wide | Extent::Close => random.pick(&[1, 2, 3]),
    };
    if tries != 1000 || random.one_in(2) {
        set(&mut draft.top, "tries", &tries.to_string());
    }
    if random.one_in(3) {
        set(&mut draft.top, "arbiter", random.pick(&["\"priority\"", "'rotating'", "\"rotating\""]));
    }
    scripts(random, &mut draft, aims, extent);
    repair(random, &mut draft);
    draft
}

fn boards(random: &mut Random, draft: &mut Draft, extent: Extent) -> Vec<Aim> {
    let count = match extent {
        Extent::Small => random.from_to(2, 3),
        Extent::Wide if random.one_in(8) => random.from_to(1, 21),
        Extent::Close if random.one_in(30) => random.from_to(6, 21),
        Extent::Wide | Extent::Close => random.from_to(1, 5),
    };
    let mut slots: Vec<u32> = (1..=21).collect();
    random.shuffle(&mut slots);
    slots.truncate(count);
    slots.sort();
    let mut free = [0; 3];
    let mut aims = Vec::new();
    for slot in slots {
        let aim = aim(random, &mut free, extent != Extent::Wide);
        draft.boards.push(Board { keys: keys(random, slot, &aim), script: Vec::new() });
        aims.push(aim);
    }
    aims
}

/// A place for a board above those that are there. The last board of a space may end where the space ends.
fn aim(random: &mut Random, free: &mut [u32; 3], are_close: bool) -> Aim {
    let spaces = [Space::A32, Space::A32, Space::A32, Space::A24, Space::A16];
    let space = random.pick(&spaces);
    let sizes: &[u32] = if are_close { &[16, 32, 64] } else { &[4, 8, 12, 16, 20, 24, 32, 64, 256, 260, 1024, 4096] };
    let size = if random.one_in(60) && !are_close { 1 << 20 } else { random.pick(sizes) };
    let size = if space == Space::A16 { size.min(1024) } else { size };
    let gap = 4 * random.pick(&[0, 0, 1, 16, 64]) as u32;
    let free = &mut free[space as usize];
    let base = free.saturating_add(gap);
    let end = space.addresses() - u64::from(size);
    if random.one_in(20) && u64::from(base) < end {
        *free = u32::MAX;
        return Aim { space, base: end as u32, size, is_supervisory: random.one_in(8) };
    }
    if u64::from(base) + u64::from(size) > space.addresses() || *free == u32::MAX {
        // The space is full. The board goes where it may fall on another; `repair` takes it out then.
        return Aim { space, base: 0x4000, size, is_supervisory: false };
    }
    *free = base + size;
    Aim { space, base, size, is_supervisory: random.one_in(8) }
}

fn keys(random: &mut Random, slot: u32, aim: &Aim) -> Table {
    let mut keys = Table::new();
    set(&mut keys, "slot", &slot.to_string());
    set(&mut keys, "base", &aim.base.to_string());
    set(&mut keys, "size", &aim.size.to_string());
    if aim.space != Space::A32 || random.one_in(3) {
        let name = match aim.space {
            Space::A16 => "\"a16\"",
            Space::A24 => "\"a24\"",
            Space::A32 => "'a32'",
        };
        set(&mut keys, "space", name);
    }
    if aim.is_supervisory || random.one_in(10) {
        set(&mut keys, "supervisory", if aim.is_supervisory { "true" } else { "false" });
    }
    if random.one_in(2) {
        set(&mut keys, "level", &random.below(4).to_string());
    }
    if random.one_in(5) {
        set(&mut keys, "width", random.pick(&["8", "16", "32"]));
    }
    for (key, chance) in [("blt", 12), ("rmw", 12), ("uat", 8)] {
        if random.one_in(chance) {
            let is_true = random.one_in(3) && (key != "uat" || get(&keys, "width").is_none());
            set(&mut keys, key, if is_true { "true" } else { "false" });
        }
    }
    keys
}

/// A mailbox on a board that is large enough for it, if there is one.
fn mailbox(random: &mut Random, draft: &mut Draft, aims: &[Aim]) {
    let aim = random.pick(aims);
    if aim.size < 20 {
        return;
    }
    let most_slots = (aim.size - 16) / 4;
    let slots = random.from_to(1, most_slots.min(4) as usize) as u32;
    let spare = aim.size - 16 - 4 * slots;
    let offset = if random.one_in(2) { spare } else { 4 * random.below(1 + spare as usize / 4) as u32 };
    let code = match aim.space {
        Space::A16 => 0x29,
        Space::A24 => 0x39,
        Space::A32 => 0x09,
    };
    let mut keys = Table::new();
    set(&mut keys, "am", &(code + if aim.is_supervisory { 4 } else { 0 }).to_string());
    set(&mut keys, "addr", &(aim.base + offset).to_string());
    set(&mut keys, "slots", &slots.to_string());
    draft.mailboxes.push(keys);
}

fn scripts(random: &mut Random, draft: &mut Draft, boards: Vec<Aim>, extent: Extent) {
    let are_close = extent != Extent::Wide;
    let counts: &[usize] = if extent == Extent::Small { &[0, 1, 1, 2, 2, 3] } else { &[0, 1, 2, 3, 4, 5, 6, 8, 12] };
    let mut commands = ALL.to_vec();
    if draft.mailboxes.is_empty() {
        commands.truncate(ALL.len() - 2);
    } else {
        commands.extend(["put", "take", "put", "take"]);
    }
    if random.one_in(3) {
        let few = random.from_to(1, 4);
        random.shuffle(&mut commands);
        commands.truncate(few);
    }
    let mailboxes = draft.mailboxes.len();
    let few_boards = if are_close { 1 + random.below(2.min(boards.len())) } else { boards.len() };
    let aimed = boards[..few_boards].to_vec();
    for (board, aim) in draft.boards.iter_mut().zip(&boards) {
        let aims = Aims { boards: aimed.clone(), own_size: aim.size, mailboxes, are_close };
        let count = random.pick(counts);
        board.script = (0..count).map(|_| lines::lawful(random, &aims, &commands).into_bytes()).collect();
        if random.one_in(10) {
            let line = random.pick(&["", "# nothing", "   "]).as_bytes().to_vec();
            board.script.insert(random.below(count + 1), line);
        }
    }
}

/// Takes out what the reader of configurations refuses, such as lines that name bytes of a mailbox.
fn repair(random: &mut Random, draft: &mut Draft) {
    loop {
        match reading::configuration(draft.text(random).as_bytes()) {
            Ok(_) => return,
            Err(Refused::Script { slot, line, .. }) => {
                let slot = slot.to_string();
                let board = draft.boards.iter_mut().find(|it| get(&it.keys, "slot") == Some(&slot));
                board.expect("a board has the slot").script[line - 1] = b"# taken out".to_vec();
            }
            Err(_) if !draft.mailboxes.is_empty() => {
                draft.mailboxes.pop();
            }
            Err(_) => {
                draft.boards.pop();
                assert!(!draft.boards.is_empty(), "one board alone is lawful: {}", draft.text(random));
            }
        }
    }
}

/// A schedule of some pairs, and some rounds.
fn turns(random: &mut Random, draft: &mut Draft) {
    let slots: Vec<String> = draft.boards.iter().filter_map(|it| get(&it.keys, "slot")).map(String::from).collect();
    if random.one_in(2) {
        let count = random.below(12);
        let pairs: Vec<String> =
            (0..count).map(|_| format!("[{}, {}]", random.pick(&slots), random.below(8))).collect();
        set(&mut draft.top, "schedule", &format!("[{}]", pairs.join(", ")));
    }
    let rounds = random.pick(&[0, 3, 10, 30, 100, 300, 300, 1000]);
    set(&mut draft.top, "rounds", &rounds.to_string());
}
