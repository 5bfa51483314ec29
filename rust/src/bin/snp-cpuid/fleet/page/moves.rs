//! The parts of the page on moves: pictures, ways in words, matrices, and what keeps groups apart.

use super::super::differing;
use super::super::moves::{MOST_COMPARED, Way, by_pages};
use super::super::text::{NOTE, blocked, listed, many};
use super::super::{Fleet, Group};
use super::features::named;
use super::html::{column, details, escaped, folded, mark, name, table};
use super::picture::{MOST_DRAWN, figure};
use super::{MOST_GROUPS, link, links};
use snp_cpuid::Comparison;

/// A matrix of more classes is folded, and beyond the second number there is none.
const OPEN_MATRIX: usize = 12;
const MOST_MATRIX: usize = 40;

/// So many groups stand side by side in the table of what keeps them apart.
const MOST_APART: usize = 8;

/// Pictures, the ways from each class, and what keeps groups apart.
pub fn ways(fleet: &Fleet) -> String {
    if fleet.classes.len() < 2 {
        return String::new();
    }
    let groups = || fleet.groups.iter().take(MOST_GROUPS).filter(|group| group.classes.len() > 1);
    let figures: String = groups().filter(|group| group.classes.len() <= MOST_DRAWN).map(|group| figure(fleet, group)).collect();
    let mut text = "<p>A guest may go to a class whose table has every row of its own, at least its features, a save area no smaller, and all else \
                    equal."
        .to_string();
    text += if figures.is_empty() {
        "</p>\n"
    } else {
        " In the picture it goes along an arrow, and on along the next; an arrow names what is gained.</p>\n"
    };
    if !figures.is_empty() {
        text += &format!("<div class=\"figs\">\n{figures}</div>\n");
    }
    let large = groups()
        .filter(|group| group.classes.len() > MOST_COMPARED)
        .map(|group| format!("<p class=\"note\">Group {} has more than {MOST_COMPARED} classes, which are not compared.</p>\n", group.letter));
    text += &large.collect::<String>();
    text += &groups().filter(|group| group.classes.len() <= MOST_COMPARED).map(|group| from_each(fleet, group)).collect::<String>();
    text + &apart(fleet) + &notes(fleet)
}

/// From each class of a group: where a guest may go, and what is in the way elsewhere.
fn from_each(fleet: &Fleet, group: &Group) -> String {
    let row = |class: usize| {
        let rises = fleet.moves.rises[class].as_deref().unwrap_or_default();
        let to = if rises.is_empty() { "<span class=\"d\">no other class</span>".into() } else { links(fleet, rises) };
        let told = |(way, to): &(Way, Vec<String>)| format!("<div>{} {}: {}</div>", mark("no", "not to"), listed_folded(to), in_the_way(way));
        let not: Vec<String> = blocked(fleet, class).iter().map(told).collect();
        format!("<tr><th scope=\"row\">{}</th><td>{to}</td><td>{}</td></tr>\n", link(fleet, class), blocks(&not))
    };
    let head = ["From", "May go to", "Elsewhere in the group, what its table lacks"].map(column).concat();
    let rows: String = group.classes.clone().take(MOST_MATRIX).map(row).collect();
    let letter = &group.letter;
    let more = group.classes.len().saturating_sub(MOST_MATRIX);
    let caption = if more == 0 {
        format!("From each class of group {letter}")
    } else {
        format!("From the first {MOST_MATRIX} classes of group {letter}; --json has all")
    };
    let table = table(&format!("c-from-{letter}"), "f", &caption, &head, &format!("<tbody>{rows}</tbody>"));
    if group.classes.len() <= OPEN_MATRIX { table } else { details(&format!("Group {letter}: from each class"), &table) }
}

/// The features that are lacking, or what else is first in the way.
fn in_the_way(way: &Way) -> String {
    if way.lacks.is_empty() { format!("<b>{}</b>", escaped(&way.short())) } else { folded(&way.lacks.iter().map(named).collect::<Vec<_>>()) }
}

fn listed_folded(names: &[String]) -> String {
    if names.len() <= 9 { listed(names) } else { format!("{} and {} more", names[..8].join(", "), names.len() - 8) }
}

/// Lines, those after the eighth folded; where they are more than a page should hold, counted.
fn blocks(lines: &[String]) -> String {
    match lines {
        [] => "<span class=\"d\">nothing</span>".into(),
        lines if lines.len() <= 9 => lines.concat(),
        lines if lines.len() > MOST_MATRIX => format!("{}<div>and {} more</div>", lines[..8].concat(), lines.len() - 8),
        lines => lines[..8].concat() + &details(&format!("and {} more", lines.len() - 8), &lines[8..].concat()),
    }
}

/// The registers that keep groups apart.
fn apart(fleet: &Fleet) -> String {
    if fleet.groups.len() < 2 {
        return String::new();
    }
    let groups: Vec<&Group> = fleet.groups.iter().take(MOST_APART).collect();
    let registers = differing::in_words(&groups, &fleet.classes);
    let row = |(register, words): &(String, Vec<String>)| {
        let mark = |value: &String| if *value == words[0] { "" } else { " class=\"ne\"" };
        let cells: String = words.iter().map(|value| format!("<td{}>{}</td>", mark(value), escaped(value))).collect();
        format!("<tr><th scope=\"row\">{}</th>{cells}</tr>\n", escaped(register))
    };
    let head = column("Register") + &groups.iter().map(|group| column(&group.letter)).collect::<String>();
    let rows: String = registers.iter().map(row).collect();
    let more = fleet.groups.len() - groups.len();
    let caption = if more == 0 {
        "Bold where it differs from group A".into()
    } else {
        format!("Bold where it differs from group A; {more} more groups are left out")
    };
    let table = table("c-apart", "f hx", &caption, &head, &format!("<tbody>{rows}</tbody>"));
    format!(
        "<p>From group to group no guest may go: they differ elsewhere than in features.</p>\n{}\n",
        details(&format!("What keeps the groups apart: {}", many(registers.len(), "register")), &table)
    )
}

/// What the comparison of pages does not promise.
fn notes(fleet: &Fleet) -> String {
    let (unpromised, unlike) = (&fleet.moves.unpromised, &fleet.moves.unlike);
    if unpromised.is_empty() && unlike.is_empty() {
        return String::new();
    }
    let moves: Vec<String> =
        unpromised.iter().map(|(from, to, why)| format!("{} to {} ({})", link(fleet, *from), link(fleet, *to), by_pages(why))).collect();
    let servers = unlike.iter().map(|(server, answers)| {
        let first = answers.iter().find(|answer| **answer != Comparison::Rises).map(by_pages).unwrap_or_default();
        format!("{} ({first})", name(fleet.servers[*server].name()))
    });
    let servers: Vec<String> = servers.collect();
    let mut text = format!("<p class=\"note\">{} {}", mark("half", ""), escaped(NOTE));
    if !moves.is_empty() {
        text += &format!("</p>\n<div class=\"note\">From class to class: {}.</div>", folded(&moves));
    } else {
        text += "</p>";
    }
    if !servers.is_empty() {
        text += &format!("\n<div class=\"note\">From the first server of the class, or to it: {}.</div>", folded(&servers));
    }
    text + "\n"
}

/// One matrix of all classes, or where they are many one for each group.
pub fn matrices(fleet: &Fleet) -> String {
    if fleet.classes.len() < 2 {
        return String::new();
    }
    let all: Vec<usize> = (0..fleet.classes.len()).collect();
    let tables = if all.len() <= OPEN_MATRIX {
        matrix(fleet, &all, "all", "Rows: where a guest runs. Columns: where it would go.")
    } else {
        fleet.groups.iter().take(MOST_GROUPS).map(|group| of_group(fleet, group)).collect()
    };
    if tables.is_empty() {
        return String::new();
    }
    let half = if fleet.moves.unpromised.is_empty() {
        String::new()
    } else {
        format!("<span>{} it may, and the entries do not promise it</span>", mark("half", ""))
    };
    format!(
        "<p class=\"leg\"><span>{} a guest may move</span> {half} <span>{} it may not: the first thing in the way</span></p>\n{tables}",
        mark("yes", ""),
        mark("no", "")
    )
}

fn of_group(fleet: &Fleet, group: &Group) -> String {
    let (letter, classes): (_, Vec<usize>) = (&group.letter, group.classes.clone().collect());
    match classes.len() {
        0..=1 => String::new(),
        2..=OPEN_MATRIX => matrix(fleet, &classes, letter, &format!("Group {letter}. Rows: where a guest runs. Columns: where it would go.")),
        many_classes @ ..=MOST_MATRIX => {
            let inside = matrix(fleet, &classes, letter, "Rows: where a guest runs. Columns: where it would go.");
            details(&format!("Group {letter}: {}", many(many_classes, "class")), &inside)
        }
        many_classes => format!("<p class=\"note\">Group {letter} has {} classes, too many for a matrix.</p>\n", many_classes),
    }
}

fn matrix(fleet: &Fleet, classes: &[usize], id: &str, caption: &str) -> String {
    let border = |class: usize| if fleet.groups[fleet.classes[class].group].classes.start == class { " class=\"gl\"" } else { "" };
    let head: String = classes.iter().map(|class| format!("<th scope=\"col\"{}>{}</th>", border(*class), fleet.classes[*class].name)).collect();
    let row = |from: &usize| {
        let cells: String = classes.iter().map(|to| cell(fleet, *from, *to, classes.len() <= OPEN_MATRIX)).collect();
        let top = if border(*from).is_empty() { "" } else { " class=\"gt\"" };
        format!("<tr{top}><th scope=\"row\">{}</th>{cells}</tr>\n", link(fleet, *from))
    };
    let rows: String = classes.iter().map(row).collect();
    let corner = "<td><small>from, to</small></td>";
    table(&format!("c-matrix-{id}"), "x", caption, &format!("{corner}{head}"), &format!("<tbody>{rows}</tbody>"))
}

fn cell(fleet: &Fleet, from: usize, to: usize, words: bool) -> String {
    let (a, b) = (&fleet.classes[from], &fleet.classes[to]);
    let line = if fleet.groups[b.group].classes.start == to { " gl" } else { "" };
    if from == to {
        return format!("<td class=\"self{line}\"><span class=\"v\">the same class</span></td>");
    }
    let way = Way::of(&a.table, &b.table);
    let may = fleet.moves.rises[from].as_ref().is_some_and(|rises| rises.contains(&to));
    let unpromised = fleet.moves.unpromised.iter().find(|(x, y, _)| (*x, *y) == (from, to));
    let (answer, inside) = match (may, unpromised) {
        (true, None) => ("yes", mark("yes", "yes")),
        (true, Some((.., why))) => ("yes", format!("{}<small>{}</small>", mark("half", "yes, not promised: "), escaped(&by_pages(why)))),
        (false, _) => ("no", format!("{}<small>{}</small>", mark("no", "no: "), escaped(&way.short()))),
    };
    // in a large matrix these would be most of the page
    let further = || {
        let (from, to) = (&a.name, &b.name);
        format!(" data-from=\"{from}\" data-to=\"{to}\" data-answer=\"{answer}\" title=\"{from} to {to}: {}\"", escaped(&way.long()))
    };
    let further = if words { further() } else { String::new() };
    format!("<td class=\"{answer}{line}\"{further}>{inside}</td>")
}
