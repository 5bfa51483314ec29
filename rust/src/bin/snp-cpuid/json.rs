//! JSON (RFC 8259): values, and their text.

use crate::arguments::Arguments;
use crate::option::Opt;
use std::fmt;

/// The option of a command that can answer in JSON.
pub const OPTION: Opt = Opt::flag(&["--json"], "print the answer as JSON, a refusal included");

/// Whether JSON was asked for.
pub fn asked(arguments: &Arguments) -> bool {
    arguments.has(&OPTION)
}

/// A value. Objects keep the order of their members.
#[derive(Clone, Debug, PartialEq, Eq, Hash)]
pub enum Json {
    Null,
    Bool(bool),
    Number(u64),
    Text(String),
    Array(Vec<Json>),
    Object(Vec<(&'static str, Json)>),
}

/// An object of these members.
pub fn object(members: impl IntoIterator<Item = (&'static str, Json)>) -> Json {
    Json::Object(members.into_iter().collect())
}

/// An array of these items.
pub fn array(items: impl IntoIterator<Item = impl Into<Json>>) -> Json {
    Json::Array(items.into_iter().map(Into::into).collect())
}

/// A leaf or a register: eight hexadecimal capitals, as the command prints them elsewhere.
pub fn hex(number: u32) -> Json {
    Json::Text(format!("{number:08X}"))
}

impl Json {
    /// The object with further members; any other value as it is.
    pub fn with(self, more: impl IntoIterator<Item = (&'static str, Json)>) -> Json {
        match self {
            Json::Object(members) => object(members.into_iter().chain(more)),
            other => other,
        }
    }

    /// Its text where it stands inside others, so many levels deep.
    pub fn inside(&self, depth: usize) -> String {
        struct Inside<'a>(&'a Json, usize);
        impl fmt::Display for Inside<'_> {
            fn fmt(&self, f: &mut fmt::Formatter<'_>) -> fmt::Result {
                self.0.write(f, self.1)
            }
        }
        Inside(self, depth).to_string()
    }

    /// Whether it is an array or object that takes lines of its own: it has an array or object inside.
    fn is_nested(&self) -> bool {
        let inside = |value: &Json| matches!(value, Json::Array(_) | Json::Object(_));
        match self {
            Json::Array(items) => items.iter().any(inside),
            Json::Object(members) => members.iter().any(|(_, value)| inside(value)),
            _ => false,
        }
    }

    fn write(&self, f: &mut fmt::Formatter<'_>, depth: usize) -> fmt::Result {
        match self {
            Json::Null => f.write_str("null"),
            Json::Bool(value) => write!(f, "{value}"),
            Json::Number(value) => write!(f, "{value}"),
            Json::Text(text) => string(f, text),
            Json::Array(items) => {
                let write = |f: &mut fmt::Formatter<'_>, item: &Json| item.write(f, depth + 1);
                list(f, ["[", "]"], items, write, self.is_nested().then_some(depth))
            }
            Json::Object(members) => {
                let write = |f: &mut fmt::Formatter<'_>, (name, value): &(&str, Json)| {
                    string(f, name)?;
                    f.write_str(": ")?;
                    value.write(f, depth + 1)
                };
                list(f, ["{", "}"], members, write, self.is_nested().then_some(depth))
            }
        }
    }
}

/// A value of which not all is in memory while it is written.
pub enum Part<'a> {
    Value(Json),
    /// an object
    Members(Vec<(&'static str, Part<'a>)>),
    /// an array of objects, each of which is made when its turn comes
    Items(Box<dyn Iterator<Item = Json> + 'a>),
}

impl<'a> Part<'a> {
    /// An array of these objects.
    pub fn items(items: impl Iterator<Item = Json> + 'a) -> Part<'a> {
        Part::Items(Box::new(items))
    }

    /// The text, a newline at its end, piece by piece: as that of the same value.
    pub fn text(self) -> impl Iterator<Item = String> + 'a {
        self.pieces(0).chain(["\n".to_string()])
    }

    fn pieces(self, depth: usize) -> Box<dyn Iterator<Item = String> + 'a> {
        let line = |depth: usize| format!("\n{:1$}", "", 2 * depth);
        let lead = move |number: usize| [if number == 0 { "" } else { "," }, &line(depth + 1)].concat();
        match self {
            Part::Value(value) => Box::new([value.inside(depth)].into_iter()),
            Part::Members(members) => {
                let member = move |(number, (name, part)): (usize, (&str, Part<'a>))| {
                    [format!("{}\"{name}\": ", lead(number))].into_iter().chain(part.pieces(depth + 1))
                };
                let inside = members.into_iter().enumerate().flat_map(member);
                Box::new(["{".to_string()].into_iter().chain(inside).chain([line(depth) + "}"]))
            }
            Part::Items(items) => {
                let mut items = items.enumerate().peekable();
                let close = if items.peek().is_some() { line(depth) + "]" } else { "]".into() };
                let inside = items.map(move |(number, item)| lead(number) + &item.inside(depth + 1));
                Box::new(["[".to_string()].into_iter().chain(inside).chain([close]))
            }
        }
    }
}

/// The parts of an array or object between its brackets: on lines of their own, set in by the depth that is given, or on one line.
fn list<T>(
    f: &mut fmt::Formatter<'_>,
    [open, close]: [&str; 2],
    parts: &[T],
    write: impl Fn(&mut fmt::Formatter<'_>, &T) -> fmt::Result,
    depth: Option<usize>,
) -> fmt::Result {
    f.write_str(open)?;
    for (index, part) in parts.iter().enumerate() {
        match (depth, index) {
            (Some(depth), 0) => write!(f, "\n{:1$}", "", 2 * depth + 2)?,
            (Some(depth), _) => write!(f, ",\n{:1$}", "", 2 * depth + 2)?,
            (None, 0) => {}
            (None, _) => f.write_str(", ")?,
        }
        write(f, part)?;
    }
    if let Some(depth) = depth {
        write!(f, "\n{:1$}", "", 2 * depth)?;
    }
    f.write_str(close)
}

/// A string: quotation mark, backslash and control characters escaped (RFC 8259, section 7).
fn string(f: &mut fmt::Formatter<'_>, text: &str) -> fmt::Result {
    f.write_str("\"")?;
    let mut rest = text;
    while let Some((at, c)) = rest.char_indices().find(|(_, c)| is_escaped(*c)) {
        f.write_str(&rest[..at])?;
        match c {
            '"' => f.write_str("\\\"")?,
            '\\' => f.write_str("\\\\")?,
            '\n' => f.write_str("\\n")?,
            '\r' => f.write_str("\\r")?,
            '\t' => f.write_str("\\t")?,
            c => write!(f, "\\u{:04x}", u32::from(c))?,
        }
        rest = &rest[at + c.len_utf8()..];
    }
    f.write_str(rest)?;
    f.write_str("\"")
}

fn is_escaped(c: char) -> bool {
    match c {
        '"' | '\\' | '\0'..='\u{1F}' | '\u{7F}' => true,
        // the line separators of JavaScript, which a page's script would end a line at
        '\u{2028}' | '\u{2029}' => true,
        // so that the text may stand inside an HTML script element
        '<' => true,
        _ => false,
    }
}

/// The text, a newline at its end.
impl fmt::Display for Json {
    fn fmt(&self, f: &mut fmt::Formatter<'_>) -> fmt::Result {
        self.write(f, 0)?;
        f.write_str("\n")
    }
}

impl From<bool> for Json {
    fn from(value: bool) -> Json {
        Json::Bool(value)
    }
}

impl From<u32> for Json {
    fn from(value: u32) -> Json {
        Json::Number(value.into())
    }
}

impl From<u64> for Json {
    fn from(value: u64) -> Json {
        Json::Number(value)
    }
}

impl From<usize> for Json {
    fn from(value: usize) -> Json {
        Json::Number(value as u64)
    }
}

impl From<&str> for Json {
    fn from(value: &str) -> Json {
        Json::Text(value.into())
    }
}

impl From<String> for Json {
    fn from(value: String) -> Json {
        Json::Text(value)
    }
}

/// Null where there is nothing.
impl<T: Into<Json>> From<Option<T>> for Json {
    fn from(value: Option<T>) -> Json {
        value.map_or(Json::Null, Into::into)
    }
}

impl<T: Into<Json>> From<T> for Part<'_> {
    fn from(value: T) -> Self {
        Part::Value(value.into())
    }
}
