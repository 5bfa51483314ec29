//! The report as text, in lines of 80 columns.

use super::bits::{self, Bits, register_name};
use super::differing;
use super::groups;
use super::moves::{MOST_COMPARED, Way, by_pages};
use super::pools::Pool;
use super::refused::{Refused, Told};
use super::{Class, Fleet, Group};
use crate::wrap::wrapped_in;
use std::borrow::Borrow;
use std::collections::{BTreeMap, HashMap};

const COLUMNS: usize = 80;

/// So many names are told; what is left is counted.
const NAMES: usize = 8;

/// So many servers of a pool are named beside what they cost.
const NAMED: usize = 4;

/// So many classes of a group are told one by one.
const CLASSES: usize = 24;

/// So many classes fit a line of a grid.
const GRID: usize = 10;

/// The report.
pub fn of(fleet: &Fleet) -> String {
    let parts = [head(fleet), classes(fleet), moves(fleet), pools(fleet), features(fleet), refused(fleet), not_read(fleet), notes(fleet)];
    parts.into_iter().filter(|part| !part.is_empty()).collect::<Vec<_>>().join("\n")
}

/// A number of things: 1 class, 2 classes.
pub fn many(number: usize, thing: &str) -> String {
    let plural = if thing.ends_with('s') { "es" } else { "s" };
    format!("{number} {thing}{}", if number == 1 { "" } else { plural })
}

/// Names with commas, and "and" before the last.
pub fn listed(names: &[String]) -> String {
    match names {
        [] => String::new(),
        [one] => one.clone(),
        [first @ .., last] => format!("{} and {last}", first.join(", ")),
    }
}

/// The first names, and how many more there are.
fn folded<S: Borrow<str>>(names: &[S]) -> String {
    if names.len() <= NAMES + 1 { names.join(" ") } else { format!("{} and {} more", names[..NAMES].join(" "), names.len() - NAMES) }
}

/// The same with commas.
fn folded_list(names: &[String]) -> String {
    if names.len() <= NAMES + 1 { listed(names) } else { format!("{} and {} more", names[..NAMES].join(", "), names.len() - NAMES) }
}

fn wrapped(label: &str, words: &str) -> String {
    wrapped_in(COLUMNS, label, words)
}

/// The answer in a sentence.
pub fn sentence(fleet: &Fleet) -> String {
    let (all, accepted, classes) = (fleet.servers.len(), fleet.accepted(), fleet.classes.len());
    let servers = many(all, "server");
    match (accepted, classes) {
        (0, _) => format!("{servers}: {}", if all == 1 { "refused" } else { "all refused" }),
        (_, 1) if all == 1 => format!("{servers}: accepted"),
        (_, 1) if accepted == all => format!("{servers}: all accepted, with one table"),
        (_, _) if accepted == all => format!("{servers}: all accepted, in {}", many(classes, "class")),
        _ => format!("{servers}: {accepted} accepted in {}, {} refused", many(classes, "class"), all - accepted),
    }
}

/// What the library was asked for.
pub fn choices(fleet: &Fleet) -> String {
    let avic = if fleet.building.secure_avic() { "with" } else { "without" };
    let view = if fleet.view { ", tables as processor 0 sees them" } else { "" };
    format!("edition {} of the AVX rule, {avic} secure AVIC{view}", fleet.building.edition())
}

fn head(fleet: &Fleet) -> String {
    format!("{}\n{}\n", sentence(fleet), choices(fleet))
}

fn class_names(fleet: &Fleet, classes: &[usize]) -> Vec<String> {
    classes.iter().map(|class| fleet.classes[*class].name.clone()).collect()
}

/// What a group's processors are.
pub fn described(group: &Group, classes: &[Class]) -> String {
    let table = &classes[group.classes.start].table;
    let (processors, threads) = groups::topology(table);
    format!("{}, {}, {} per core", groups::signature(table), many(processors as usize, "processor"), many(threads as usize, "thread"))
}

fn classes(fleet: &Fleet) -> String {
    if fleet.classes.is_empty() {
        return String::new();
    }
    let mut text = "Classes: all servers of a class give a guest one table, of this fingerprint\n".to_string();
    for group in fleet.groups.iter().take(CLASSES) {
        let name = groups::processor(&fleet.classes[group.classes.start].table);
        text += &wrapped(&format!("{:3}", group.letter), &format!("{name}: {}", described(group, &fleet.classes)));
        for place in group.classes.clone().take(CLASSES) {
            let (class, lacks) = (&fleet.classes[place], bits::names(&differing::lacks(fleet, place)));
            let lacks: Vec<String> = lacks.into_iter().map(String::from).collect();
            let without = if lacks.is_empty() { String::new() } else { format!("; without {}", folded(&lacks)) };
            let label = format!("   {:5}{:.8}{:>5}  ", class.name, class.fingerprint, class.servers.len());
            text += &wrapped(&label, &(folded(&fleet.names(&class.servers)) + &without));
        }
        text += &more_classes(group);
    }
    text + &more_groups(fleet.groups.len())
}

fn more_groups(groups: usize) -> String {
    let more = groups.saturating_sub(CLASSES);
    if more == 0 { String::new() } else { format!("and {} more, which --json has\n", many(more, "group")) }
}

fn more_classes(group: &Group) -> String {
    let more = group.classes.len().saturating_sub(CLASSES);
    if more == 0 { String::new() } else { format!("   and {} more, which --json has\n", many(more, "class")) }
}

fn moves(fleet: &Fleet) -> String {
    if fleet.classes.len() < 2 {
        return String::new();
    }
    let mut text = "Moves: a guest may go to a class that has at least its own table\n".to_string();
    for group in fleet.groups.iter().take(CLASSES).filter(|group| group.classes.len() > 1) {
        if group.classes.len() > MOST_COMPARED {
            text += &format!("   {}    more than {MOST_COMPARED} classes are not compared\n", group.letter);
            continue;
        }
        text += &group.classes.clone().take(CLASSES).map(|class| from(fleet, class)).collect::<String>();
        text += &more_classes(group);
    }
    text + &between_groups(fleet)
}

/// Where the guests of a class may go, and what stands in the way elsewhere in its group.
fn from(fleet: &Fleet, class: usize) -> String {
    let label = format!("   {:6}", fleet.classes[class].name);
    let rises = fleet.moves.rises[class].as_deref().unwrap_or_default();
    let to = if rises.is_empty() { "to no other class".into() } else { format!("to {}", folded_list(&class_names(fleet, rises))) };
    let blocked: Vec<String> = blocked(fleet, class).iter().map(|(why, to)| format!("{} ({})", folded_list(to), told(why))).collect();
    let not = if blocked.is_empty() { String::new() } else { format!("; not to {}", blocked.join(", ")) };
    wrapped(&label, &(to + &not))
}

/// What is in the way: the features that are lacking by register, or what else is first.
fn told(way: &Way) -> String {
    let many: usize = way.lacks.iter().map(|bits| bits.each().count()).sum();
    let told =
        |bits: &Bits| format!("{} {}", register_name(bits.register.leaf, bits.register.subleaf, bits.register.register), bits.names().join(" "));
    match many {
        0 => way.short(),
        1..=NAMES => way.lacks.iter().map(told).collect::<Vec<_>>().join(", "),
        _ => format!("{} and more, {many} features", told(&way.lacks[0])),
    }
}

/// The classes of the group to which a guest may not go, by what is in the way.
pub fn blocked(fleet: &Fleet, class: usize) -> Vec<(Way, Vec<String>)> {
    let rises = fleet.moves.rises[class].as_deref().unwrap_or_default();
    let mut reasons: Vec<(Way, Vec<String>)> = vec![];
    let mut places: HashMap<String, usize> = HashMap::new();
    for other in fleet.groups[fleet.classes[class].group].classes.clone().filter(|other| *other != class && !rises.contains(other)) {
        let way = Way::of(&fleet.classes[class].table, &fleet.classes[other].table);
        let place = *places.entry(told(&way)).or_insert(reasons.len());
        if place == reasons.len() {
            reasons.push((way, vec![]));
        }
        reasons[place].1.push(fleet.classes[other].name.clone());
    }
    reasons
}

/// The registers in which each group differs from the first.
fn between_groups(fleet: &Fleet) -> String {
    let Some((first, others)) = fleet.groups.split_first().filter(|(_, others)| !others.is_empty()) else { return String::new() };
    let mut text = "   From group to group no guest may go:\n".to_string();
    for other in others.iter().take(CLASSES) {
        let apart = differing::in_words(&[first, other], &fleet.classes);
        let told = |(register, words): &(String, Vec<String>)| format!("{register} ({}; {})", words[0], words[1]);
        let mut words = apart.iter().take(3).map(told).collect::<Vec<_>>().join(", ");
        if apart.len() > 3 {
            words += &format!(" and {} more registers", apart.len() - 3);
        }
        text += &wrapped(&format!("   {} and {}: ", first.letter, other.letter), &words);
    }
    text + &more_groups(others.len())
}

fn pools(fleet: &Fleet) -> String {
    if fleet.pools.is_empty() {
        return String::new();
    }
    let head = "Pools: several classes with one table, of what all of them have\n".to_string();
    head + &fleet.pools.iter().take(CLASSES).map(|pool| pooled(fleet, pool)).collect::<String>()
}

/// How many servers classes have.
pub fn servers_of(fleet: &Fleet, classes: &[usize]) -> usize {
    classes.iter().map(|class| fleet.classes[*class].servers.len()).sum()
}

/// What a pool is called: its group's letter where it has all of it, or its classes.
pub fn pool_name(fleet: &Fleet, pool: &Pool) -> String {
    let group = &fleet.groups[fleet.classes[pool.classes[0]].group];
    if pool.classes.len() == group.classes.len() { group.letter.clone() } else { folded(&class_names(fleet, &pool.classes)) }
}

/// What a pool loses, by the classes that lack it.
pub fn losses(pool: &Pool) -> Vec<(Vec<usize>, Vec<String>)> {
    let mut losses: BTreeMap<Vec<usize>, Vec<String>> = BTreeMap::new();
    for lost in &pool.lost {
        losses.entry(lost.lacking.clone()).or_default().extend(lost.bits.names().into_iter().map(String::from));
    }
    let mut losses: Vec<_> = losses.into_iter().collect();
    losses.sort_by_key(|(lacking, _)| lacking.len());
    losses
}

fn pooled(fleet: &Fleet, pool: &Pool) -> String {
    let (servers, classes) = (many(servers_of(fleet, &pool.classes), "server"), many(pool.classes.len(), "class"));
    let lost: Vec<String> = pool.lost.iter().flat_map(|lost| lost.bits.names()).map(String::from).collect();
    let without = if lost.is_empty() { "nothing lost".into() } else { format!("without {}", folded(&lost)) };
    let mut text = wrapped(&format!("   {:6}", pool_name(fleet, pool)), &format!("{servers} in {classes}, {without}"));
    for (lacking, names) in losses(pool).iter().take(CLASSES) {
        let cost = if lacking.len() == 1 { "costs" } else { "together cost" };
        let named = || lacking.iter().flat_map(|class| fleet.names(&fleet.classes[*class].servers)).collect::<Vec<_>>().join(" ");
        let servers = servers_of(fleet, lacking);
        let servers = if servers <= NAMED { named() } else { many(servers, "server") };
        text += &wrapped("         ", &format!("{} ({servers}) {cost} {}", folded_list(&class_names(fleet, lacking)), folded(names)));
    }
    text
}

fn features(fleet: &Fleet) -> String {
    let rows = differing::features(&fleet.classes);
    if rows.is_empty() {
        return String::new();
    }
    let grid = fleet.classes.len() <= GRID;
    let names: String = fleet.classes.iter().filter(|_| grid).map(|class| format!("{:>4}", class.name)).collect();
    let mut text = if grid { format!("{:16}{names}\n", "Features") } else { "Features that differ\n".into() };
    for row in &rows {
        let f = row.bits.register;
        let register = register_name(f.leaf, f.subleaf, f.register);
        let bits = row.bits.names().join(" ");
        text += &if grid {
            let marks: String = row.has.iter().map(|has| if *has { "   +" } else { "   -" }).collect();
            wrapped(&format!("   {register:13}{marks}  "), &bits)
        } else {
            let lacking: Vec<usize> = (0..row.has.len()).filter(|class| !row.has[*class]).collect();
            wrapped(&format!("   {register:14}"), &format!("{bits}: not in {}", folded_list(&class_names(fleet, &lacking))))
        };
    }
    text
}

fn refused(fleet: &Fleet) -> String {
    let mut refusals = fleet.refused.iter().filter(|refused| refused.number > 0).peekable();
    if refusals.peek().is_none() {
        return String::new();
    }
    let told = |told: &Told| {
        let lot = |(label, servers): (&str, &[usize])| wrapped("         ", &format!("{label}: {}", fleet.names(servers).join(" ")));
        wrapped("      ", &told.words) + &told.lots().map(lot).collect::<String>()
    };
    let number = |refused: &Refused| {
        let head = format!("{} by refusal {}. {}", many(refused.many(), "server"), refused.number, refused.place);
        wrapped("   ", &head) + &refused.told.iter().map(told).collect::<String>()
    };
    let all: String = refusals.map(number).collect();
    format!("Refused\n{all}{}", wrapped("   ", ADVICE))
}

/// What a reader does next.
pub const ADVICE: &str = "'snp-cpuid table FILE' says what a refusal rests on and what change is accepted, and 'set' makes it.";

/// What gave no server, or gave nothing of one: by the reason.
fn not_read(fleet: &Fleet) -> String {
    let mut reasons: BTreeMap<&str, Vec<&str>> = BTreeMap::new();
    for refused in fleet.refused.iter().filter(|refused| refused.number == 0) {
        refused.told.iter().for_each(|told| reasons.entry(&told.words).or_default().extend(fleet.names(&told.servers())));
    }
    fleet.not_read.iter().for_each(|unread| reasons.entry(&unread.why).or_default().push(&unread.file));
    if reasons.is_empty() {
        return String::new();
    }
    let told = |(why, files): (&&str, &Vec<&str>)| wrapped("   ", &files.join(" ")) + &wrapped("      ", why);
    format!("Not read\n{}", reasons.iter().map(told).collect::<String>())
}

/// What the comparison of pages says beyond the tables.
fn notes(fleet: &Fleet) -> String {
    let moves = fleet
        .moves
        .unpromised
        .iter()
        .map(|(from, to, answer)| format!("{} to {} ({})", fleet.classes[*from].name, fleet.classes[*to].name, by_pages(answer)));
    let unlike = fleet.moves.unlike.iter().map(|(server, answers)| {
        let first = answers.iter().find(|answer| **answer != snp_cpuid::Comparison::Rises);
        format!("{} ({})", fleet.servers[*server].name(), first.map(by_pages).unwrap_or_default())
    });
    let (moves, unlike): (Vec<String>, Vec<String>) = (moves.collect(), unlike.collect());
    if moves.is_empty() && unlike.is_empty() {
        return String::new();
    }
    let mut text = wrapped("", NOTE);
    if !moves.is_empty() {
        text += &wrapped("   ", &format!("from class to class: {}", folded_list(&moves)));
    }
    if !unlike.is_empty() {
        text += &wrapped("   ", &format!("from the first server of the class, or to it: {}", folded_list(&unlike)));
    }
    text
}

/// Why there are notes.
pub const NOTE: &str = "Note: the tables allow these moves, and a guest sees no difference. By the entries of the pages, before the other server is \
                        built, they are not promised; 'compare' says more:";
