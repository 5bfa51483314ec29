//! JSON (RFC 8259), read as it comes: what `fleet` has written before.

use std::io::{self, BufRead};

/// A value. A number is kept as its text, and of an object that names a member twice the first counts.
#[derive(Debug, PartialEq, Eq)]
pub enum Value {
    /// null, true or false, or a number
    Word(String),
    Text(String),
    Array(Vec<Value>),
    Object(Vec<(String, Value)>),
}

/// So deep may arrays and objects stand in each other.
const DEEPEST: usize = 32;

impl Value {
    /// A member of an object.
    pub fn member(&self, name: &str) -> Option<&Value> {
        let Value::Object(members) = self else { return None };
        members.iter().find(|(own, _)| own == name).map(|(_, value)| value)
    }

    pub fn text(&self) -> Option<&str> {
        if let Value::Text(text) = self { Some(text) } else { None }
    }

    pub fn word(&self) -> Option<&str> {
        if let Value::Word(word) = self { Some(word) } else { None }
    }
}

/// A text that is read from front to back; nothing is kept of what was read. Where it is no JSON, every answer is none.
pub struct Reader<R> {
    input: R,
    /// how many arrays and objects the next value stands in
    depth: usize,
    /// why no more can be read
    pub failed: Option<io::Error>,
}

impl<R: BufRead> Reader<R> {
    pub fn new(input: R) -> Reader<R> {
        Reader { input, depth: 0, failed: None }
    }

    /// The whole text: an object, whose members are read by the function that is given, or any other value.
    pub fn whole(&mut self, mut member: impl FnMut(&mut Self, &str) -> Option<()>) -> Option<()> {
        if self.is_next(b'{') {
            self.parts([b'{', b'}'], |reader| reader.name().and_then(|name| member(reader, &name)))?;
        } else {
            self.value()?;
        }
        self.skip();
        self.peek().is_none().then_some(())
    }

    /// The items of an array, one by one, and whether the next value is one.
    pub fn items(&mut self, mut item: impl FnMut(Value)) -> Option<bool> {
        let is_array = self.is_next(b'[');
        if is_array {
            self.parts([b'[', b']'], |reader| reader.value().map(&mut item))?
        } else {
            drop(self.value()?)
        }
        Some(is_array)
    }

    /// The next value.
    pub fn value(&mut self) -> Option<Value> {
        self.skip();
        match self.peek()? {
            _ if self.depth > DEEPEST => None,
            b'{' => {
                let mut members = vec![];
                self.parts([b'{', b'}'], |reader| {
                    members.push((reader.name()?, reader.value()?));
                    Some(())
                })?;
                Some(Value::Object(members))
            }
            b'[' => {
                let mut items = vec![];
                self.parts([b'[', b']'], |reader| reader.value().map(|item| items.push(item)))?;
                Some(Value::Array(items))
            }
            b'"' => self.string().map(Value::Text),
            _ => self.word().map(Value::Word),
        }
    }

    fn peek(&mut self) -> Option<u8> {
        self.ahead(|bytes| bytes.first().copied())?
    }

    fn next(&mut self) -> Option<u8> {
        let byte = self.peek()?;
        self.input.consume(1);
        Some(byte)
    }

    /// What a function makes of the bytes that can be read next, which are none at the end.
    fn ahead<T>(&mut self, made: impl FnOnce(&[u8]) -> T) -> Option<T> {
        self.input.fill_buf().map(made).map_err(|error| self.failed = Some(error)).ok()
    }

    /// Passes over bytes up to the first that is not wanted, and gives them to a function.
    fn run(&mut self, wanted: impl Fn(&u8) -> bool, mut passed: impl FnMut(&[u8])) {
        let mut is_over = false;
        while !is_over {
            let run = self.ahead(|bytes| {
                let run = bytes.iter().position(|byte| !wanted(byte)).unwrap_or(bytes.len());
                passed(&bytes[..run]);
                is_over = run < bytes.len() || bytes.is_empty();
                run
            });
            match run {
                Some(run) => self.input.consume(run),
                None => return,
            }
        }
    }

    fn skip(&mut self) {
        self.run(|byte| b" \t\n\r".contains(byte), |_| {});
    }

    /// Whether a byte stands next.
    fn is_next(&mut self, wanted: u8) -> bool {
        self.skip();
        self.peek() == Some(wanted)
    }

    /// Passes over a byte, where it stands next.
    fn take(&mut self, wanted: u8) -> bool {
        let there = self.is_next(wanted);
        self.input.consume(usize::from(there));
        there
    }

    /// The name of a member, and the colon behind it.
    fn name(&mut self) -> Option<String> {
        self.skip();
        let name = self.string()?;
        self.take(b':').then_some(name)
    }

    /// What stands between two brackets, with commas.
    fn parts(&mut self, [open, close]: [u8; 2], mut part: impl FnMut(&mut Self) -> Option<()>) -> Option<()> {
        self.take(open);
        if self.take(close) {
            return Some(());
        }
        self.depth += 1;
        loop {
            part(self)?;
            if self.take(close) {
                self.depth -= 1;
                return Some(());
            }
            if !self.take(b',') {
                return None;
            }
        }
    }

    /// null, true, false or a number.
    fn word(&mut self) -> Option<String> {
        let mut bytes = vec![];
        self.run(|byte| byte.is_ascii_alphanumeric() || b"+-.".contains(byte), |run| bytes.extend(run));
        let word = String::from_utf8(bytes).ok()?;
        (["null", "true", "false"].contains(&word.as_str()) || word.parse::<f64>().is_ok()).then_some(word)
    }

    fn string(&mut self) -> Option<String> {
        let mut bytes = vec![];
        if self.next()? != b'"' {
            return None;
        }
        loop {
            self.run(|byte| !b"\"\\".contains(byte), |run| bytes.extend(run));
            if self.next()? == b'"' {
                return String::from_utf8(bytes).ok();
            }
            let escaped = match self.next()? {
                b'n' => '\n',
                b'r' => '\r',
                b't' => '\t',
                b'b' => '\u{8}',
                b'f' => '\u{C}',
                b'u' => self.code()?,
                other => other.into(),
            };
            bytes.extend(escaped.encode_utf8(&mut [0; 4]).as_bytes());
        }
    }

    /// A character by its number of four hexadecimal digits.
    fn code(&mut self) -> Option<char> {
        let mut code = 0;
        for _ in 0..4 {
            code = 16 * code + char::from(self.next()?).to_digit(16)?;
        }
        char::from_u32(code)
    }
}
