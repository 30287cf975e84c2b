//! Damages to a file: bytes, words and lines changed, left out, repeated and put in.

use crate::random::Random;

/// What stands for a word or is put beside one.
const WORDS: [&[u8]; 58] = [
    b"0",
    b"1",
    b"-1",
    b"+1",
    b"3",
    b"16",
    b"18",
    b"21",
    b"22",
    b"256",
    b"1000001",
    b"0x",
    b"0xfffffffc",
    b"4294967296",
    b"99999999999999999999",
    b"1e9",
    b"1_0",
    b"1.5",
    b"true",
    b"false",
    b"''",
    b"\"\"",
    b"\"\"\"",
    b"'''",
    b"[]",
    b"[[",
    b"]]",
    b"[[board]]",
    b"[[mailbox]]",
    b"{}",
    b"=",
    b",",
    b"#",
    b"\\",
    b"\\n",
    b"\r",
    b"\r\n",
    b"\x00",
    b"\x7f",
    b"\xff",
    b"\xc3\xa9",
    b"\t",
    b"slot",
    b"base",
    b"size",
    b"script",
    b"schedule",
    b"\"a16\"",
    b"\"rotating\"",
    b"r",
    b"bf",
    b"lock",
    b"take 1",
    b"set",
    b"09",
    b"0b",
    b"00000000",
    b"0g",
];

pub fn damaged(random: &mut Random, text: Vec<u8>, other: &[u8]) -> Vec<u8> {
    let mut text = text;
    let most = random.pick(&[1, 1, 3, 6]);
    for _ in 0..random.from_to(1, most) {
        if !text.is_empty() {
            text = once(random, text, other);
        }
    }
    text
}

fn once(random: &mut Random, text: Vec<u8>, other: &[u8]) -> Vec<u8> {
    let at = random.below(text.len());
    let most = random.pick(&[2, 8, 64]);
    let length = random.below(most);
    let end = text.len().min(at + length);
    match random.below(16) {
        0 => text[..at].to_vec(),
        1 => [&text[..at], &random.bytes(1), &text[at + 1..]].concat(),
        2 => [&text[..at], &text[end..]].concat(),
        3 => [&text[..end], &text[at..]].concat(),
        4 => [&text[..at], random.pick(&WORDS), &text[at..]].concat(),
        5 => [&text[..at], &other[random.below(other.len() + 1)..]].concat(),
        6..=9 => other_word(random, text),
        _ => other_line(random, text, other),
    }
}

/// Another word in place of one.
fn other_word(random: &mut Random, text: Vec<u8>) -> Vec<u8> {
    let is_word = |it: u8| it.is_ascii_alphanumeric() || it == b'_';
    let starts: Vec<usize> =
        (0..text.len()).filter(|at| is_word(text[*at]) && (*at == 0 || !is_word(text[*at - 1]))).collect();
    if starts.is_empty() {
        return text;
    }
    let start = random.pick(&starts);
    let length = text[start..].iter().take_while(|it| is_word(**it)).count();
    [&text[..start], random.pick(&WORDS), &text[start + length..]].concat()
}

/// A line left out, repeated elsewhere, or put in from another file.
fn other_line(random: &mut Random, text: Vec<u8>, other: &[u8]) -> Vec<u8> {
    let mut lines: Vec<&[u8]> = text.split_inclusive(|it| *it == b'\n').collect();
    let others: Vec<&[u8]> = other.split_inclusive(|it| *it == b'\n').collect();
    let at = random.below(lines.len());
    match random.below(3) {
        0 => {
            lines.remove(at);
        }
        1 => lines.insert(at, random.pick(&lines)),
        _ if !others.is_empty() => lines.insert(at, random.pick(&others)),
        _ => {}
    }
    lines.concat()
}
