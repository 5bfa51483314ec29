//! Pieces of HTML.

/// Text for an element or a quoted attribute. Characters that turn the direction of the text around are written as numbers.
pub fn escaped(text: &str) -> String {
    let one = |c: char| match c {
        '&' => "&amp;".into(),
        '<' => "&lt;".into(),
        '>' => "&gt;".into(),
        '"' => "&quot;".into(),
        '\u{200E}' | '\u{200F}' | '\u{202A}'..='\u{202E}' | '\u{2066}'..='\u{2069}' => c.escape_unicode().to_string(),
        c => c.to_string(),
    };
    text.chars().map(one).collect()
}

/// A server's name.
pub fn name(text: &str) -> String {
    format!("<bdi>{}</bdi>", escaped(text))
}

/// So many names stand open; the others are folded.
const OPEN: usize = 8;

/// Names, those after the eighth folded.
pub fn folded(names: &[String]) -> String {
    let open = if names.len() > OPEN + 1 { OPEN } else { names.len() };
    let (first, more) = names.split_at(open);
    let first = first.join(" ");
    if more.is_empty() { first } else { format!("{first} {}", details(&format!("and {} more", more.len()), &more.join(" "))) }
}

/// What opens with a click or a key.
pub fn details(summary: &str, inside: &str) -> String {
    format!("<details><summary>{summary}</summary><div>{inside}</div></details>")
}

/// A mark by its shape, and the words that stand for it where it is read aloud.
pub fn mark(shape: &str, words: &str) -> String {
    format!("<svg class=\"m {shape}\" aria-hidden=\"true\"><use href=\"#m-{shape}\"/></svg><span class=\"v\">{words}</span>")
}

/// The shapes of the marks.
pub const SYMBOLS: &str = "\
<svg width=\"0\" height=\"0\" class=\"v\" aria-hidden=\"true\"><defs>\
<symbol id=\"m-yes\" viewBox=\"0 0 12 12\"><circle cx=\"6\" cy=\"6\" r=\"5\"/></symbol>\
<symbol id=\"m-half\" viewBox=\"0 0 12 12\"><circle cx=\"6\" cy=\"6\" r=\"4.4\" fill=\"none\" stroke-width=\"1.3\"/>\
<path d=\"M6 1.6a4.4 4.4 0 0 0 0 8.8z\" stroke=\"none\"/></symbol>\
<symbol id=\"m-no\" viewBox=\"0 0 12 12\"><path d=\"M2.5 2.5l7 7m0-7l-7 7\" fill=\"none\" stroke-width=\"1.7\"/></symbol>\
<symbol id=\"m-has\" viewBox=\"0 0 12 12\"><rect x=\"1\" y=\"1\" width=\"10\" height=\"10\"/></symbol>\
<symbol id=\"m-not\" viewBox=\"0 0 12 12\"><circle cx=\"6\" cy=\"6\" r=\"3.6\" fill=\"none\" stroke-width=\"1.6\"/></symbol>\
<marker id=\"arrow\" viewBox=\"0 0 8 8\" refX=\"7\" refY=\"4\" markerWidth=\"8\" markerHeight=\"8\" markerUnits=\"userSpaceOnUse\" orient=\"auto\">\
<path class=\"head\" d=\"M0 .6L8 4L0 7.4z\"/></marker></defs></svg>\n";

/// A table that scrolls by itself where it is wider than the window, with its caption.
pub fn table(id: &str, kind: &str, caption: &str, head: &str, body: &str) -> String {
    format!(
        "<div class=\"s\" tabindex=\"0\" role=\"region\" aria-labelledby=\"{id}\"><table class=\"{kind}\"><caption id=\"{id}\">{caption}</caption>\n\
         <thead><tr>{head}</tr></thead>\n{body}</table></div>\n"
    )
}

/// A head cell over a column.
pub fn column(text: &str) -> String {
    format!("<th scope=\"col\">{text}</th>")
}

/// A head cell over a column of numbers, which stand at the right.
pub fn number_column(text: &str) -> String {
    format!("<th scope=\"col\" class=\"r\">{text}</th>")
}

/// A part of the page.
pub fn section(id: &str, title: &str, inside: &str) -> String {
    format!("<section id=\"{id}\" aria-labelledby=\"{id}-title\"><h2 id=\"{id}-title\">{title}</h2>\n{inside}</section>\n")
}
