//! A reader of the part of TOML 1.0 that configurations use. It distinguishes text that is not TOML from TOML outside
//! of its subset: dotted keys, dates and times, and additions of later versions.

mod numbers;
mod strings;

#[derive(Clone, PartialEq, Debug)]
pub enum Value {
    Integer(i64),
    Boolean(bool),
    Text(String),
    Array(Vec<Value>),
    Table(Table),
    /// Its number is of no use here.
    Float,
}

pub type Table = Vec<(String, Value)>;

#[derive(Clone, Copy, PartialEq, Eq, Debug)]
pub enum Fault {
    NotToml,
    OutsideSubset,
}

/// The greatest depth of arrays and inline tables in each other.
const DEEPEST: usize = 32;

const BYTE_ORDER_MARK: &[u8] = b"\xef\xbb\xbf";

pub fn read(text: &[u8]) -> Result<Table, Fault> {
    if std::str::from_utf8(text).is_err() {
        return Err(Fault::NotToml);
    }
    if text.starts_with(BYTE_ORDER_MARK) {
        return Err(Fault::OutsideSubset);
    }
    Reader { text, at: 0, depth: 0 }.document()
}

/// Where the names of a line belong.
enum Place {
    Top,
    /// The table of this name.
    Table(String),
    /// The last table of the array of this name.
    LastOf(String),
}

struct Reader<'a> {
    text: &'a [u8],
    at: usize,
    depth: usize,
}

impl Reader<'_> {
    fn document(&mut self) -> Result<Table, Fault> {
        let mut top = Table::new();
        // The arrays whose tables have headers; an array that is a value takes no further table.
        let mut arrays = Vec::new();
        let mut place = Place::Top;
        loop {
            self.skip_spaces();
            match self.peek() {
                None => return Ok(top),
                Some(b'\n' | b'\r' | b'#') => {}
                Some(b'[') => place = self.header(&mut top, &mut arrays)?,
                Some(_) => self.pair(table_of(&mut top, &place))?,
            }
            self.line_end()?;
        }
    }

    fn header(&mut self, top: &mut Table, arrays: &mut Vec<String>) -> Result<Place, Fault> {
        let is_array = self.text[self.at..].starts_with(b"[[");
        self.at += if is_array { 2 } else { 1 };
        let name = self.key()?;
        self.expect(b"]")?;
        if !is_array {
            insert(top, name.clone(), Value::Table(Table::new()))?;
            return Ok(Place::Table(name));
        }
        self.expect(b"]")?;
        if !arrays.contains(&name) {
            insert(top, name.clone(), Value::Array(Vec::new()))?;
            arrays.push(name.clone());
        }
        match find(top, &name) {
            Some(Value::Array(tables)) => tables.push(Value::Table(Table::new())),
            _ => unreachable!("a name of arrays stands for an array"),
        }
        Ok(Place::LastOf(name))
    }

    /// A key, `=` and a value.
    fn pair(&mut self, table: &mut Table) -> Result<(), Fault> {
        let key = self.key()?;
        self.expect(b"=")?;
        self.skip_spaces();
        let value = self.value()?;
        insert(table, key, value)
    }

    /// A key, with the spaces on both sides of it.
    fn key(&mut self) -> Result<String, Fault> {
        self.skip_spaces();
        let key = match self.peek() {
            Some(b'"') => self.basic_string()?,
            Some(b'\'') => self.literal_string()?,
            _ => {
                let word = self.take_while(|it| it.is_ascii_alphanumeric() || it == b'_' || it == b'-');
                if word.is_empty() {
                    return Err(Fault::NotToml);
                }
                word
            }
        };
        self.skip_spaces();
        if self.peek() == Some(b'.') {
            return Err(Fault::OutsideSubset);
        }
        Ok(key)
    }

    fn value(&mut self) -> Result<Value, Fault> {
        match self.peek() {
            Some(b'"') if self.has(b"\"\"\"") => Ok(Value::Text(self.long_basic_string()?)),
            Some(b'"') => Ok(Value::Text(self.basic_string()?)),
            Some(b'\'') if self.has(b"'''") => Ok(Value::Text(self.long_literal_string()?)),
            Some(b'\'') => Ok(Value::Text(self.literal_string()?)),
            Some(b'[') => self.deeper(Self::array),
            Some(b'{') => self.deeper(Self::inline_table),
            _ => {
                let word = self.take_while(|it| it.is_ascii_alphanumeric() || b"_+-.:".contains(&it));
                numbers::value(&word)
            }
        }
    }

    fn deeper(&mut self, read: fn(&mut Self) -> Result<Value, Fault>) -> Result<Value, Fault> {
        if self.depth == DEEPEST {
            return Err(Fault::OutsideSubset);
        }
        self.depth += 1;
        self.at += 1;
        let value = read(self)?;
        self.depth -= 1;
        Ok(value)
    }

    /// An array, from behind its bracket.
    fn array(&mut self) -> Result<Value, Fault> {
        let mut values = Vec::new();
        loop {
            self.skip_lines()?;
            if self.skip(b"]") {
                return Ok(Value::Array(values));
            }
            values.push(self.value()?);
            self.skip_lines()?;
            if !self.skip(b",") {
                self.expect(b"]")?;
                return Ok(Value::Array(values));
            }
        }
    }

    /// An inline table, from behind its brace. A later TOML also allows lines in it, and a comma after the last pair.
    fn inline_table(&mut self) -> Result<Value, Fault> {
        let mut table = Table::new();
        self.inner_spaces()?;
        if self.skip(b"}") {
            return Ok(Value::Table(table));
        }
        loop {
            self.pair(&mut table)?;
            self.inner_spaces()?;
            if self.skip(b"}") {
                return Ok(Value::Table(table));
            }
            self.expect(b",")?;
            self.inner_spaces()?;
            if self.peek() == Some(b'}') {
                return Err(Fault::OutsideSubset);
            }
        }
    }

    fn inner_spaces(&mut self) -> Result<(), Fault> {
        self.skip_spaces();
        match self.peek() {
            Some(b'\n' | b'\r' | b'#') => Err(Fault::OutsideSubset),
            _ => Ok(()),
        }
    }

    /// Spaces, a comment if there is one, and the end of the line or of the text.
    fn line_end(&mut self) -> Result<(), Fault> {
        self.skip_spaces();
        if self.skip(b"#") {
            let comment = self.take_while(|it| it == b'\t' || it >= b' ' && it != 0x7f);
            drop(comment);
        }
        if self.at == self.text.len() || self.skip(b"\n") || self.skip(b"\r\n") {
            return Ok(());
        }
        Err(Fault::NotToml)
    }

    /// Spaces, comments and ends of lines.
    fn skip_lines(&mut self) -> Result<(), Fault> {
        self.skip_spaces();
        while let Some(b'\n' | b'\r' | b'#') = self.peek() {
            self.line_end()?;
            self.skip_spaces();
        }
        Ok(())
    }

    fn skip_spaces(&mut self) {
        while let Some(b' ' | b'\t') = self.peek() {
            self.at += 1;
        }
    }

    fn peek(&self) -> Option<u8> {
        self.text.get(self.at).copied()
    }

    fn has(&self, token: &[u8]) -> bool {
        self.text[self.at..].starts_with(token)
    }

    fn skip(&mut self, token: &[u8]) -> bool {
        let has = self.has(token);
        if has {
            self.at += token.len();
        }
        has
    }

    fn expect(&mut self, token: &[u8]) -> Result<(), Fault> {
        self.skip(token).then_some(()).ok_or(Fault::NotToml)
    }

    /// The longest run of bytes of a kind. Each kind takes whole characters.
    fn take_while(&mut self, is_of_kind: impl Fn(u8) -> bool) -> String {
        let run = self.text[self.at..].iter().take_while(|it| is_of_kind(**it));
        let length = run.count();
        self.at += length;
        text_of(&self.text[self.at - length..self.at])
    }
}

/// The text of whole characters.
fn text_of(bytes: &[u8]) -> String {
    String::from_utf8(bytes.to_vec()).expect("the whole file is UTF-8, cut between characters")
}

fn find<'a>(table: &'a mut Table, key: &str) -> Option<&'a mut Value> {
    table.iter_mut().find(|it| it.0 == key).map(|it| &mut it.1)
}

fn insert(table: &mut Table, key: String, value: Value) -> Result<(), Fault> {
    if find(table, &key).is_some() {
        return Err(Fault::NotToml);
    }
    table.push((key, value));
    Ok(())
}

fn table_of<'a>(top: &'a mut Table, place: &Place) -> &'a mut Table {
    let value = match place {
        Place::Top => return top,
        Place::Table(name) => find(top, name),
        Place::LastOf(name) => match find(top, name) {
            Some(Value::Array(tables)) => tables.last_mut(),
            _ => None,
        },
    };
    match value {
        Some(Value::Table(table)) => table,
        _ => unreachable!("a header made the table"),
    }
}
