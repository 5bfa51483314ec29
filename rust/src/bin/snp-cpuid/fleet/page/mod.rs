//! The report as a page: one file of HTML without script, which loads nothing.

mod day;
mod features;
mod html;
mod moves;
mod picture;
mod pools;

use super::differing;
use super::refused::{Refused, Told};
use super::text::{ADVICE, choices, described, listed, many, pool_name, sentence, servers_of};
use super::{Fleet, Group, bits, groups};
use crate::meanings;
use html::{SYMBOLS, column, details, escaped, folded, name, number_column, section, table};

const STYLE: &str = include_str!("page.css");

/// So many classes of a group stand in the table of classes; the others are folded.
const CLASSES: usize = 40;

/// So many groups and so many classes of each are on the page at all, and so many links in one cell.
const MOST_GROUPS: usize = 200;
const MOST_CLASSES: usize = 1000;
const MOST_LINKS: usize = 100;

/// The parts that the answers on the first screen lead to.
const ANSWERED: [&str; 4] = ["classes", "moves", "pools", "refused"];

/// So many servers of a class or a refusal are named on the first screen.
const NAMED: usize = 3;

/// The page.
pub fn of(fleet: &Fleet) -> String {
    let title = sentence(fleet);
    let parts = [
        ("classes", "Which servers are alike", classes(fleet)),
        ("moves", "Where a guest may go", moves::ways(fleet)),
        ("matrix", "Each class to each other", moves::matrices(fleet)),
        ("features", "Features that differ", features::of(fleet)),
        ("pools", "One table for several classes", pools::of(fleet)),
        ("refused", "Refused, and why", refused(fleet)),
        ("made", "How this was made", made(fleet)),
    ];
    let parts: Vec<_> = parts.into_iter().filter(|(.., inside)| !inside.is_empty()).collect();
    // the answers above have links to the other parts
    let further = parts.iter().filter(|(id, ..)| !ANSWERED.contains(id));
    let links: String = further.map(|(id, title, _)| format!("<a href=\"#{id}\">{title}</a> ")).collect();
    let sections: String = parts.iter().map(|(id, title, inside)| section(id, title, inside)).collect();
    format!(
        "<!doctype html>\n<html lang=\"en\">\n<head>\n<meta charset=\"utf-8\">\n\
         <meta http-equiv=\"Content-Security-Policy\" content=\"default-src 'none'; style-src 'unsafe-inline'; img-src data:\">\n\
         <meta name=\"viewport\" content=\"width=device-width, initial-scale=1\">\n<meta name=\"color-scheme\" content=\"light dark\">\n\
         <link rel=\"icon\" href=\"data:,\">\n<title>{title}</title>\n<style>\n{STYLE}</style>\n</head>\n<body>\n{SYMBOLS}\
         <header>\n<p class=\"k\">CPUID tables of AMD SEV-SNP servers, {}</p>\n<h1>{title}</h1>\n{}\
         <nav aria-label=\"Parts of this page\">{links}</nav>\n\
         </header>\n<main>\n{sections}</main>\n</body>\n</html>\n",
        choices(fleet),
        answers(fleet, &parts.iter().map(|(id, ..)| *id).collect::<Vec<_>>())
    )
}

/// A link to a class; its name alone where it is not on the page.
fn link(fleet: &Fleet, class: usize) -> String {
    let (name, group) = (&fleet.classes[class].name, fleet.classes[class].group);
    let there = group < MOST_GROUPS && class - fleet.groups[group].classes.start < MOST_CLASSES;
    if there { format!("<a href=\"#{name}\">{name}</a>") } else { name.clone() }
}

/// Links to classes, those after the eighth folded; where they are more than a page should hold, counted.
fn links(fleet: &Fleet, classes: &[usize]) -> String {
    let links = |classes: &[usize]| classes.iter().map(|class| link(fleet, *class)).collect::<Vec<_>>();
    if classes.len() <= MOST_LINKS { folded(&links(classes)) } else { format!("{} and {} more", links(&classes[..8]).join(" "), classes.len() - 8) }
}

/// The answers, a sentence each, with links to the parts that are there.
fn answers(fleet: &Fleet, there: &[&str]) -> String {
    let parts = [
        ("classes", "Same table", same(fleet)),
        ("moves", "Moves", may_move(fleet)),
        ("pools", "Pools", pooled(fleet)),
        ("refused", "Refused", why(fleet)),
    ];
    let titled = |id: &str, title: &str| if there.contains(&id) { format!("<a href=\"#{id}\">{title}</a>") } else { title.to_string() };
    let told = parts.iter().filter(|(.., words)| !words.is_empty());
    let lines: String = told.map(|(id, title, words)| format!("<div><dt>{}</dt><dd>{words}</dd></div>\n", titled(id, title))).collect();
    format!("<dl>\n{lines}</dl>\n")
}

fn same(fleet: &Fleet) -> String {
    let mut shared: Vec<usize> = (0..fleet.classes.len()).filter(|class| fleet.classes[*class].servers.len() > 1).collect();
    let alone = match fleet.classes.len() - shared.len() {
        0 => String::new(),
        1 => " One server has a table of its own.".into(),
        alone => format!(" {alone} servers have a table of their own."),
    };
    shared.sort_by_key(|class| std::cmp::Reverse(fleet.classes[*class].servers.len()));
    let told = |class: &usize| format!("{} ({})", link(fleet, *class), few(fleet, &fleet.classes[*class].servers));
    let largest = listed(&shared.iter().take(5).map(told).collect::<Vec<_>>());
    match (shared.len(), fleet.classes.len()) {
        (_, 0) => String::new(),
        (0, 1) => "One server, one table.".into(),
        (0, _) => "No two servers give the same table.".into(),
        (1, 1) => "All accepted servers give the same table.".into(),
        (1, _) => format!("One class has more than one server: {largest}.{alone}"),
        (number, _) if number > 5 => format!("{number} classes have more than one server; the largest are {largest}.{alone}"),
        (number, _) => format!("{number} classes have more than one server: {largest}.{alone}"),
    }
}

/// The first servers of some by name, and how many more there are.
fn few(fleet: &Fleet, servers: &[usize]) -> String {
    let named = server_names(fleet, &servers[..servers.len().min(NAMED)]);
    let more = servers.len().saturating_sub(NAMED);
    if more == 0 { listed(&named) } else { format!("{} and {more} more", named.join(", ")) }
}

/// From each class that leads somewhere, where to.
fn ways(fleet: &Fleet) -> Vec<String> {
    let to = |rises: &[usize]| listed(&rises.iter().map(|class| link(fleet, *class)).collect::<Vec<_>>());
    let all = fleet.moves.rises.iter().enumerate().filter_map(|(class, rises)| Some((class, rises.as_deref()?)));
    all.filter(|(_, rises)| !rises.is_empty()).map(|(class, rises)| format!("from {} to {}", link(fleet, class), to(rises))).collect()
}

/// What is in the way, inside the groups and between them: features by name, and the first register that keeps the first two groups apart.
fn in_the_way(fleet: &Fleet) -> String {
    let mut bits: Vec<String> = fleet.groups.iter().flat_map(|group| bits::names(&group.differing)).map(String::from).collect();
    bits.sort();
    bits.dedup();
    let more = bits.len().saturating_sub(6);
    bits.truncate(6);
    let more = if more == 0 { String::new() } else { format!(" and {more} more") };
    let features = if bits.is_empty() {
        String::new()
    } else {
        format!(" In the way are {}{more}.", if more.is_empty() { listed(&bits) } else { bits.join(", ") })
    };
    let apart = fleet.groups.get(..2).map(|groups| differing::in_words(&groups.iter().collect::<Vec<_>>(), &fleet.classes));
    let apart = apart
        .and_then(|apart| apart.into_iter().next())
        .map(|(register, words)| format!(" Groups A and B differ in {}: {} and {}.", escaped(&register), escaped(&words[0]), escaped(&words[1])));
    features + &apart.unwrap_or_default()
}

fn may_move(fleet: &Fleet) -> String {
    let pairs = fleet.moves.rises.iter().flatten().map(Vec::len).sum::<usize>();
    let letters: Vec<String> = fleet.groups.iter().take(6).map(|group| format!("{} ({})", group.letter, group.servers)).collect();
    let groups = match fleet.groups.len() {
        0 => return String::new(),
        1 if fleet.classes.len() == 1 && fleet.accepted() == 1 => return String::new(),
        1 if fleet.classes.len() == 1 => return "A guest may move between any two of them.".into(),
        1 => "All classes differ in features only.".into(),
        number if number > 6 => format!("No guest leaves its group, and there are {number}; the largest are {}.", listed(&letters)),
        number => format!("No guest leaves its group, and there are {number}: {} servers.", listed(&letters)),
    };
    let within = match pairs {
        0 => "Inside a group no class has all that another has.".to_string(),
        1..=6 => format!("A guest may go {}.", listed(&ways(fleet))),
        _ => format!("Inside a group there are {pairs} ways from class to class, each to one that has at least as much."),
    };
    let within = if fleet.classes.len() == fleet.groups.len() { String::new() } else { format!(" {within}") };
    groups + &within + &in_the_way(fleet)
}

fn pooled(fleet: &Fleet) -> String {
    let told = |pool: &super::Pool| {
        let lost: Vec<&str> = pool.lost.iter().flat_map(|lost| lost.bits.names()).collect();
        let names: Vec<String> = lost.iter().map(|name| name.to_string()).collect();
        let without = if lost.len() > 6 { format!("{} and {} more", names[..5].join(", "), lost.len() - 5) } else { listed(&names) };
        format!("The {} of {} share one table without {without}.", many(servers_of(fleet, &pool.classes), "server"), escaped(&pool_name(fleet, pool)))
    };
    fleet.pools.iter().take(4).map(told).collect::<Vec<_>>().join(" ")
}

fn why(fleet: &Fleet) -> String {
    let told = |refused: &Refused| {
        let servers: Vec<usize> = refused.told.iter().flat_map(Told::servers).collect();
        match refused.number {
            0 => format!("{} not read ({})", refused.many(), few(fleet, &servers)),
            number => format!("{} by refusal {number}, {} ({})", refused.many(), meanings::short(number), few(fleet, &servers)),
        }
    };
    let refused = fleet.servers.len() - fleet.accepted();
    let told = fleet.refused.iter().map(told).collect::<Vec<_>>().join("; ");
    if refused == 0 { String::new() } else { format!("{}: {told}.", many(refused, "server")) }
}

fn classes(fleet: &Fleet) -> String {
    if fleet.classes.is_empty() {
        return String::new();
    }
    let words = "<p>All servers of a class give a guest the same table, so a program that asks CPUID what to use does the same on each of them. \
                 The letter is the group: classes that differ in features only. Number 1 has most features.</p>\n";
    let head = column("Class") + &number_column("Servers") + &["Names", "Without, of what its group has"].map(column).concat();
    let body: String = fleet.groups.iter().take(MOST_GROUPS).map(|group| group_rows(fleet, group)).collect();
    let more = fleet.groups.len().saturating_sub(MOST_GROUPS);
    let more = if more == 0 { String::new() } else { format!("<p>and {more} more groups, which --json has</p>\n") };
    words.to_string() + &table("c-classes", "f", "Accepted servers by class", &head, &body) + &more
}

fn group_rows(fleet: &Fleet, group: &Group) -> String {
    let table = &fleet.classes[group.classes.start].table;
    let mut text = format!(
        "<tbody><tr class=\"g\"><th colspan=\"4\" scope=\"rowgroup\" id=\"g-{}\">Group {}: {} <small>{}; save area {} bytes</small></th></tr>\n",
        group.letter,
        group.letter,
        escaped(&groups::processor(table)),
        escaped(&described(group, &fleet.classes)),
        groups::save_area(table)
    );
    text += &group.classes.clone().take(CLASSES).map(|class| class_row(fleet, class)).collect::<String>();
    let more = group.classes.len().saturating_sub(CLASSES);
    if more > 0 {
        let rows = group.classes.clone().take(MOST_CLASSES).skip(CLASSES).map(|class| format!("<div>{}</div>", more_class(fleet, class)));
        let left = group.classes.len().saturating_sub(MOST_CLASSES);
        let left = if left == 0 { String::new() } else { format!("<p>and {left} more, which --json has</p>") };
        let inside = rows.collect::<String>() + &left;
        text += &format!("<tr><td colspan=\"4\">{}</td></tr>\n", details(&format!("and {more} more classes"), &inside));
    }
    text + "</tbody>\n"
}

fn server_names(fleet: &Fleet, servers: &[usize]) -> Vec<String> {
    servers.iter().map(|server| name(fleet.servers[*server].name())).collect()
}

fn class_row(fleet: &Fleet, place: usize) -> String {
    let class = &fleet.classes[place];
    let lacks: Vec<String> = differing::lacks(fleet, place).iter().map(features::named).collect();
    let lacks = if lacks.is_empty() { "<span class=\"d\">nothing</span>".into() } else { folded(&lacks) };
    format!(
        "<tr id=\"{name}\" data-class=\"{name}\" data-servers=\"{many}\">\
         <th scope=\"row\" title=\"{fingerprint}\">{name}<div class=\"d\">{fingerprint:.8}</div></th>\
         <td class=\"r\">{many}</td><td>{}</td><td>{lacks}</td></tr>\n",
        folded(&server_names(fleet, &class.servers)),
        name = class.name,
        fingerprint = class.fingerprint,
        many = class.servers.len()
    )
}

/// A class of a large group, in one line.
fn more_class(fleet: &Fleet, place: usize) -> String {
    let class = &fleet.classes[place];
    let name = &class.name;
    let without = bits::names(&differing::lacks(fleet, place)).len();
    format!(
        "<b id=\"{name}\" data-class=\"{name}\" data-servers=\"{}\">{name}</b> {}; without {}",
        class.servers.len(),
        folded(&server_names(fleet, &class.servers)),
        many(without, "feature")
    )
}

fn refused(fleet: &Fleet) -> String {
    let told = |told: &Told| {
        let lot = |(label, servers): (&str, &[usize])| format!("<div>{label}: {}</div>", folded(&server_names(fleet, servers)));
        format!("<div>{}</div>{}", escaped(&told.words), told.lots().map(lot).collect::<String>())
    };
    let row = |refused: &Refused| {
        let number = if refused.number == 0 { "Not read".into() } else { format!("Refusal {}", refused.number) };
        format!(
            "<tr data-refusal=\"{}\" data-servers=\"{many}\"><td class=\"r\">{many}</td><td><b>{number}</b>. {}{}</td></tr>\n",
            refused.number,
            escaped(refused.place),
            refused.told.iter().map(told).collect::<String>(),
            many = refused.many()
        )
    };
    let unread: String = fleet.not_read.iter().map(|unread| format!("<div>{}: {}</div>", name(&unread.file), escaped(&unread.why))).collect();
    let unread = if unread.is_empty() { unread } else { details(&format!("{} of no server", many(fleet.not_read.len(), "file")), &unread) };
    if fleet.refused.is_empty() {
        return unread;
    }
    let head = number_column("Servers") + &column("Why");
    let rows: String = fleet.refused.iter().map(row).collect();
    let words = "<p>These servers have no table. A refusal speaks of the pages, not of what the machine can do.</p>\n";
    let advice = format!("<p>{}</p>\n", escaped(ADVICE));
    words.to_string()
        + &table("c-refused", "f rf", "Servers without a table, by the reason", &head, &format!("<tbody>{rows}</tbody>"))
        + &advice
        + &unread
}

fn made(fleet: &Fleet) -> String {
    format!(
        "<p>The tables, the pools and the refusals are the answers of the proved library behind <code>snp-cpuid {}</code>, under {}. Each server is \
         built once, and the tables of classes are compared. <code>snp-cpuid fleet --json</code> gives the same answers to a program, and \
         <code>snp-cpuid compare</code> and <code>snp-cpuid pool</code> give those of single servers again.</p>\n\
         <p>Read from {} on {} (UTC).</p>\n",
        env!("CARGO_PKG_VERSION"),
        choices(fleet),
        folded(&fleet.from.iter().map(|file| format!("<code>{}</code>", escaped(file))).collect::<Vec<_>>()),
        day::today()
    )
}
