//! Text in lines as wide as the reader's terminal: as the variable COLUMNS says, else as the terminal does, and 100 where there is none.

use crate::terminal;
use std::env;
use std::sync::OnceLock;

/// The most columns of a line where nobody says, and the fewest and most that COLUMNS or a terminal may.
const USUAL: usize = 100;
const FEWEST: usize = 40;
const MOST: usize = 1000;

/// The columns that COLUMNS asks for, or the terminal at standard output has.
fn asked() -> Option<usize> {
    static COLUMNS: OnceLock<Option<usize>> = OnceLock::new();
    *COLUMNS.get_or_init(|| {
        let given = env::var("COLUMNS").ok().and_then(|text| text.parse::<usize>().ok()).filter(|columns| *columns > 0);
        given.or_else(|| terminal::columns(1)).map(|columns| columns.clamp(FEWEST, MOST))
    })
}

/// A line for standard error: filled where that is a terminal, and one line where a program reads it.
pub fn told(label: &str, line: &str) -> String {
    match terminal::columns(2) {
        Some(columns) => in_columns(columns.clamp(FEWEST, MOST), label, line),
        None => format!("{label}{line}\n"),
    }
}

/// Words behind a label, on as many lines as they need, the later ones set in under the first.
pub fn wrapped(label: &str, words: &str) -> String {
    wrapped_in(USUAL, label, words)
}

/// The same in lines of so many columns where nobody says.
pub fn wrapped_in(usual: usize, label: &str, words: &str) -> String {
    in_columns(asked().unwrap_or(usual), label, words)
}

fn in_columns(columns: usize, label: &str, words: &str) -> String {
    let mut lines = vec![label.to_string()];
    for word in words.split(' ') {
        let line = lines.last_mut().expect("there is a line");
        if line.len() == label.len() {
            line.push_str(word);
        } else if line.len() + 1 + word.len() <= columns {
            line.push(' ');
            line.push_str(word);
        } else {
            lines.push(" ".repeat(label.len()) + word);
        }
    }
    lines.iter().map(|line| line.trim_end().to_string() + "\n").collect()
}

/// A text of paragraphs, each filled anew; one with a line that is set in stays as it is.
pub fn filled(text: &str) -> String {
    let paragraphs = text.trim_end().split("\n\n").map(|paragraph| {
        if paragraph.lines().any(|line| line.starts_with(' ')) { format!("{paragraph}\n") } else { wrapped("", &paragraph.replace('\n', " ")) }
    });
    paragraphs.collect::<Vec<_>>().join("\n")
}
