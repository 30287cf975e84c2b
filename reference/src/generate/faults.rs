//! Faults that make a lawful configuration one that is refused, each refusal in several ways.

use super::draft::{get, set, Board, Draft, Table};
use super::lines::{self, Aim, Aims};
use crate::codes::Space;
use crate::random::Random;

type Fault = fn(&mut Random, &mut Draft);

const FAULTS: [Fault; 33] = [
    not_toml,
    unknown_key,
    absent_key,
    wrong_kind,
    out_of_range,
    bad_pair,
    no_board,
    too_many_boards,
    bad_slot,
    bad_level,
    bad_word,
    bad_arbiter,
    bad_size,
    misaligned,
    outside_space,
    overlap,
    bad_schedule,
    too_many_mailboxes,
    bad_mailbox,
    bad_mailbox_board,
    shared_mailbox,
    bad_line,
    bad_line,
    long_script,
    mailbox_bytes,
    bad_line,
    bad_line,
    bad_line,
    mailbox_bytes,
    mailbox_bytes,
    mailbox_bytes,
    mailbox_bytes,
    mailbox_bytes,
];

pub fn put_in(random: &mut Random, draft: &mut Draft) {
    random.pick(&FAULTS)(random, draft);
}

/// Values that are of the wrong kind for some key.
const VALUES: [&str; 16] = [
    "1",
    "true",
    "false",
    "1.5",
    "-inf",
    "1e3",
    "''",
    "\"a32\"",
    "[]",
    "[[]]",
    "[[1, 1]]",
    "{}",
    "{ slot = 1 }",
    "[1]",
    "'''priority'''",
    "nan",
];

fn board<'a>(random: &mut Random, draft: &'a mut Draft) -> &'a mut Table {
    let at = random.below(draft.boards.len().max(1));
    if draft.boards.is_empty() {
        draft.boards.push(Default::default());
    }
    &mut draft.boards[at].keys
}

fn mailbox<'a>(random: &mut Random, draft: &'a mut Draft) -> &'a mut Table {
    if draft.mailboxes.is_empty() {
        let keys = [("am", "9"), ("addr", "0"), ("slots", "1")];
        draft.mailboxes.push(keys.map(|it| (it.0.to_string(), it.1.to_string())).to_vec());
    }
    let at = random.below(draft.mailboxes.len());
    &mut draft.mailboxes[at]
}

/// The top, a board or a mailbox.
fn any_table<'a>(random: &mut Random, draft: &'a mut Draft) -> &'a mut Table {
    match random.below(4) {
        0 => &mut draft.top,
        1 => mailbox(random, draft),
        _ => board(random, draft),
    }
}

fn not_toml(random: &mut Random, draft: &mut Draft) {
    let line = random.pick(&[
        "rounds",
        "rounds = ",
        "= 1",
        "tries = 1 2",
        "x = 'a",
        "x = \"a\\q\"",
        "[board]",
        "x = 01",
        "x = 1__0",
        "x = [1, 2",
        "x = 0xg",
        "x = tru",
        "[[board]",
        "x = {a = 1, a = 2}",
        "x = \"\\ud800\"",
        "\u{1}",
        "x = 1\nx = 2",
        "x = 99999999999999999999",
        "[]",
        "x = '''a''''''",
        "x = { a = 1 } 1",
        "x = -0x1",
        "[board]\n[board]",
    ]);
    draft.more.push(line.to_string());
}

fn unknown_key(random: &mut Random, draft: &mut Draft) {
    let key = random.pick(&["colour", "Slot", "boards", "slot", "am", "tries", "\"\"", "'a b'", "1"]);
    let value = random.pick(&VALUES);
    set(any_table(random, draft), key, value);
}

fn absent_key(random: &mut Random, draft: &mut Draft) {
    let table = if random.one_in(3) { mailbox(random, draft) } else { board(random, draft) };
    let key = random.pick(&["slot", "base", "size", "am", "addr", "slots"]);
    table.retain(|it| it.0 != key);
}

fn wrong_kind(random: &mut Random, draft: &mut Draft) {
    let table = any_table(random, draft);
    if table.is_empty() {
        table.push(("tries".into(), String::new()));
    }
    let at = random.below(table.len());
    table[at].1 = random.pick(&VALUES).to_string();
}

fn out_of_range(random: &mut Random, draft: &mut Draft) {
    let value = random.pick(&["-1", "4294967296", "4294967295", "0", "-9223372036854775808", "9223372036854775807"]);
    let keys = ["slot", "level", "base", "size", "width", "am", "addr", "slots", "tries", "rounds"];
    let key = random.pick(&keys);
    let table = match key {
        "am" | "addr" | "slots" => mailbox(random, draft),
        "tries" | "rounds" => &mut draft.top,
        _ => board(random, draft),
    };
    set(table, key, value);
}

fn bad_pair(random: &mut Random, draft: &mut Draft) {
    let value =
        random.pick(&["[[1]]", "[1, 1]", "[[1, 1, 1]]", "[[1, -1]]", "[['1', 1]]", "[[]]", "1", "[[1, 4294967296]]"]);
    set(&mut draft.top, "schedule", value);
}

fn no_board(random: &mut Random, draft: &mut Draft) {
    draft.boards.clear();
    if random.one_in(2) {
        set(&mut draft.top, "board", "[]");
    }
}

fn too_many_boards(random: &mut Random, draft: &mut Draft) {
    while draft.boards.len() < 22 + random.below(2) {
        let mut another = draft.boards.first().cloned().unwrap_or_default();
        set(&mut another.keys, "slot", &draft.boards.len().to_string());
        draft.boards.push(another);
    }
}

fn bad_slot(random: &mut Random, draft: &mut Draft) {
    let slot = random.pick(&["0", "22", "1", "21", "4294967295"]);
    set(board(random, draft), "slot", slot);
}

fn bad_level(random: &mut Random, draft: &mut Draft) {
    let level = random.pick(&["4", "5", "4294967295"]);
    set(board(random, draft), "level", level);
}

fn bad_word(random: &mut Random, draft: &mut Draft) {
    let (key, value) = random.pick(&[
        ("space", "\"a64\""),
        ("space", "''"),
        ("space", "\"A32\""),
        ("width", "24"),
        ("width", "0"),
        ("width", "64"),
    ]);
    let table = board(random, draft);
    set(table, key, value);
    if random.one_in(3) {
        let table = board(random, draft);
        set(table, "uat", "true");
        set(table, "width", "16");
    }
}

fn bad_arbiter(random: &mut Random, draft: &mut Draft) {
    set(&mut draft.top, "arbiter", random.pick(&["'fair'", "\"\"", "'Priority'", "'rotating '"]));
}

fn bad_size(random: &mut Random, draft: &mut Draft) {
    let size = random.pick(&["0", "2", "18", "1048580", "4294967292", "17"]);
    set(board(random, draft), "size", size);
}

fn misaligned(random: &mut Random, draft: &mut Draft) {
    let base = random.pick(&["1", "2", "3", "4097", "4294967295"]);
    set(board(random, draft), "base", base);
}

fn outside_space(random: &mut Random, draft: &mut Draft) {
    let (space, base) =
        random.pick(&[("'a16'", "65536"), ("'a16'", "65532"), ("'a24'", "16777212"), ("'a32'", "4294967292")]);
    let table = board(random, draft);
    set(table, "space", space);
    set(table, "base", base);
}

fn overlap(random: &mut Random, draft: &mut Draft) {
    let base = get(board(random, draft), "base").unwrap_or("0").to_string();
    set(board(random, draft), "base", &base);
}

fn bad_schedule(random: &mut Random, draft: &mut Draft) {
    let (key, value) = random.pick(&[
        ("tries", "0"),
        ("tries", "1000001"),
        ("rounds", "1000001"),
        ("schedule", "[[22, 1]]"),
        ("schedule", "[[0, 0]]"),
        ("schedule", "[[1, 1000001]]"),
        ("schedule", "[[21, 500001], [21, 500000]]"),
        ("schedule", "[[3, 0], [1, 1]]"),
    ]);
    set(&mut draft.top, key, value);
}

fn too_many_mailboxes(random: &mut Random, draft: &mut Draft) {
    let one = mailbox(random, draft).clone();
    draft.mailboxes = vec![one; 17];
}

fn bad_mailbox(random: &mut Random, draft: &mut Draft) {
    let (key, value) = random.pick(&[
        ("am", "10"),
        ("am", "11"),
        ("am", "0x29"),
        ("am", "0x39"),
        ("am", "256"),
        ("am", "265"),
        ("am", "16"),
        ("am", "8"),
        ("addr", "2"),
        ("addr", "1"),
        ("addr", "4294967292"),
        ("addr", "16"),
        ("slots", "0"),
        ("slots", "65"),
        ("slots", "64"),
        ("slots", "5"),
    ]);
    set(mailbox(random, draft), key, value);
}

fn bad_mailbox_board(random: &mut Random, draft: &mut Draft) {
    mailbox(random, draft);
    let (key, value) = random.pick(&[("rmw", "false"), ("width", "16"), ("width", "8"), ("supervisory", "true")]);
    for board in &mut draft.boards {
        set(&mut board.keys, key, value);
    }
}

fn shared_mailbox(random: &mut Random, draft: &mut Draft) {
    let mut another = mailbox(random, draft).clone();
    if random.one_in(2) {
        let addr = get(&another, "addr").and_then(|it| it.parse::<u32>().ok()).unwrap_or(0);
        set(&mut another, "addr", &(addr.wrapping_add(4)).to_string());
    }
    draft.mailboxes.push(another);
}

fn script<'a>(random: &mut Random, draft: &'a mut Draft) -> &'a mut Vec<Vec<u8>> {
    board(random, draft);
    let at = random.below(draft.boards.len());
    &mut draft.boards[at].script
}

fn bad_line(random: &mut Random, draft: &mut Draft) {
    let aim = Aim { space: Space::A32, base: 0, size: 16, is_supervisory: false };
    let aims = Aims { boards: vec![aim], own_size: 16, mailboxes: 2, are_close: false };
    let commands = ["r", "w", "br", "bw", "bf", "m", "lr", "lw", "lm", "await", "lock", "unlock", "put", "take"];
    let mut line = lines::bad(random, &aims, &commands);
    line.retain(|it| *it != b'\n');
    let script = script(random, draft);
    if random.one_in(8) {
        // It is not dropped where no line end follows.
        line.push(b'\r');
        script.push(line);
        return;
    }
    let at = random.below(script.len() + 1);
    script.insert(at, line);
    if random.one_in(5) {
        let line = random.pick(&["put 0 00000000", "take 0", "take 17", "put 99 00000000", "take", "lr 00000000 3"]);
        script.insert(at, line.into());
    }
}

fn long_script(random: &mut Random, draft: &mut Draft) {
    let count = random.pick(&[999, 1000, 1001, 1002]);
    let line = random.pick(&["", "#", "x", "# a comment"]);
    script(random, draft).resize(count, line.into());
}

/// A line on the bytes of a mailbox, or on those beside it.
fn mailbox_bytes(random: &mut Random, draft: &mut Draft) {
    let keys = mailbox(random, draft).clone();
    let (first, slots) = (number(&keys, "addr"), number(&keys, "slots"));
    let end = first.wrapping_add(16).wrapping_add(slots.wrapping_mul(4));
    let length = random.pick(&[1, 2, 2, 4, 4]);
    // Its last byte is the first byte of the mailbox, or its first byte the last one; or it lies beside the mailbox.
    let (on_first, on_last) = (first.wrapping_sub(length - 1), end.wrapping_sub(1));
    let edges = [on_first, on_first, on_last, on_last, first.wrapping_sub(length), end];
    let inside = first.wrapping_add(random.below(24) as u32);
    let at = if random.one_in(5) { inside } else { random.pick(&edges) };
    let holds = |it: &Board| at.wrapping_sub(number(&it.keys, "base")) < number(&it.keys, "size");
    let own = draft.boards.iter().position(holds);
    let line = match own.filter(|_| !random.one_in(3)) {
        Some(own) => local_line(random, at.wrapping_sub(number(&draft.boards[own].keys, "base")), length),
        None => bus_line(random, at, length),
    };
    let script = match own.filter(|_| line.starts_with('l')) {
        Some(own) => &mut draft.boards[own].script,
        None => script(random, draft),
    };
    script.insert(random.below(script.len() + 1), line.into());
}

fn number(keys: &Table, key: &str) -> u32 {
    get(keys, key).and_then(|it| it.parse().ok()).unwrap_or(0)
}

fn local_line(random: &mut Random, offset: u32, length: u32) -> String {
    let bytes = "01".repeat(length as usize);
    match random.below(3) {
        0 => format!("lr {offset:08x} {length}"),
        1 => format!("lw {offset:08x} {bytes}"),
        _ => format!("lm {offset:08x} {length} add {bytes}"),
    }
}

fn bus_line(random: &mut Random, address: u32, length: u32) -> String {
    let code = random.pick(&["09", "39", "29", "0d", "3d", "2d"]);
    let bytes = "01".repeat(length as usize);
    match random.below(9) {
        0 => format!("r {code} {address:08x} {length}"),
        1 => format!("w {code} {address:08x} {bytes}"),
        2 => format!("m {code} {address:08x} {length} xchg {bytes}"),
        3 => format!("lock {code} {address:08x}"),
        4 => format!("unlock {code} {address:08x}"),
        5 => format!("await {code} {address:08x} {bytes}"),
        6 => format!("br 0b {:08x} 1 {}", address.wrapping_sub(4), random.from_to(1, 8)),
        7 => format!("bf 0b {:08x} 1 {} 01", address.wrapping_sub(4), random.from_to(1, 8)),
        _ => format!("bw 0b {address:08x} {length} {bytes}{bytes}"),
    }
}
