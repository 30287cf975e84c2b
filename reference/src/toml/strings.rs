//! The four kinds of strings.

use super::{text_of, Fault, Reader};

impl Reader<'_> {
    pub(super) fn literal_string(&mut self) -> Result<String, Fault> {
        self.expect(b"'")?;
        let text = self.take_while(|it| is_plain(it) && it != b'\'');
        self.expect(b"'")?;
        Ok(text)
    }

    pub(super) fn basic_string(&mut self) -> Result<String, Fault> {
        self.expect(b"\"")?;
        let mut text = String::new();
        loop {
            text += &self.take_while(|it| is_plain(it) && it != b'"' && it != b'\\');
            if self.skip(b"\\") {
                text.push(self.escape()?);
                continue;
            }
            self.expect(b"\"")?;
            return Ok(text);
        }
    }

    pub(super) fn long_literal_string(&mut self) -> Result<String, Fault> {
        self.expect(b"'''")?;
        self.skip_line_end();
        let mut text = String::new();
        loop {
            text += &self.take_while(|it| is_plain(it) && it != b'\'');
            if self.skip_line_end() {
                text.push('\n');
            } else if let Some(quotes) = self.quotes(b'\'')? {
                text += &quotes;
            } else {
                return Ok(text + &self.last_quotes(b'\''));
            }
        }
    }

    pub(super) fn long_basic_string(&mut self) -> Result<String, Fault> {
        self.expect(b"\"\"\"")?;
        self.skip_line_end();
        let mut text = String::new();
        loop {
            text += &self.take_while(|it| is_plain(it) && it != b'"' && it != b'\\');
            if self.skip_line_end() {
                text.push('\n');
            } else if self.skip(b"\\") {
                if !self.joined_lines()? {
                    text.push(self.escape()?);
                }
            } else if let Some(quotes) = self.quotes(b'"')? {
                text += &quotes;
            } else {
                return Ok(text + &self.last_quotes(b'"'));
            }
        }
    }

    fn skip_line_end(&mut self) -> bool {
        self.skip(b"\n") || self.skip(b"\r\n")
    }

    /// One or two quotes inside of a long string; none where its end is reached.
    fn quotes(&mut self, quote: u8) -> Result<Option<String>, Fault> {
        let count = self.text[self.at..].iter().take_while(|it| **it == quote).count();
        match count {
            0 => Err(Fault::NotToml),
            1 | 2 => {
                self.at += count;
                Ok(Some(text_of(&vec![quote; count])))
            }
            _ => Ok(None),
        }
    }

    /// The end of a long string: three quotes, with up to two of its text before them.
    fn last_quotes(&mut self, quote: u8) -> String {
        let count = self.text[self.at..].iter().take_while(|it| **it == quote).count().min(5);
        self.at += count;
        text_of(&vec![quote; count - 3])
    }

    /// Whether the line ends behind a backslash; then all white space up to the next character is skipped.
    fn joined_lines(&mut self) -> Result<bool, Fault> {
        let before = self.at;
        self.skip_spaces();
        if !self.skip_line_end() {
            self.at = before;
            return Ok(false);
        }
        loop {
            self.skip_spaces();
            if !self.skip_line_end() {
                return Ok(true);
            }
        }
    }

    /// What stands for an escape, from behind its backslash.
    fn escape(&mut self) -> Result<char, Fault> {
        let letter = self.peek().ok_or(Fault::NotToml)?;
        self.at += 1;
        match letter {
            b'b' => Ok('\u{8}'),
            b't' => Ok('\t'),
            b'n' => Ok('\n'),
            b'f' => Ok('\u{c}'),
            b'r' => Ok('\r'),
            b'"' => Ok('"'),
            b'\\' => Ok('\\'),
            b'u' => self.code_point(4),
            b'U' => self.code_point(8),
            // A later TOML has these.
            b'e' | b'x' => Err(Fault::OutsideSubset),
            _ => Err(Fault::NotToml),
        }
    }

    fn code_point(&mut self, digits: usize) -> Result<char, Fault> {
        let word = self.text.get(self.at..self.at + digits).ok_or(Fault::NotToml)?;
        if !word.iter().all(u8::is_ascii_hexdigit) {
            return Err(Fault::NotToml);
        }
        self.at += digits;
        let number = u32::from_str_radix(&text_of(word), 16).map_err(|_| Fault::NotToml)?;
        char::from_u32(number).ok_or(Fault::NotToml)
    }
}

/// A byte that stands for itself in each kind of string, quotes and backslashes apart.
fn is_plain(byte: u8) -> bool {
    byte == b'\t' || byte >= b' ' && byte != 0x7f
}
