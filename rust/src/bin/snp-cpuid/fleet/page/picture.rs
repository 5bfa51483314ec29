//! The order of a group's classes as a picture: a class stands above those whose guests may come to it.

use super::super::bits;
use super::super::text::{listed, many};
use super::super::{Class, Fleet, Group};
use super::html::escaped;
use std::fmt::Write;

/// A group of more classes has no picture.
pub const MOST_DRAWN: usize = 24;

const BOX: [f64; 2] = [78.0, 42.0];
const ACROSS: f64 = 14.0;
const UP: f64 = 62.0;
/// So many boxes stand side by side, which a phone is wide enough for.
const ROW: usize = 4;
const MARGIN: f64 = 8.0;
/// Wide enough for the words on an arrow.
const LEAST: f64 = 130.0;

/// A box, or the place where an arrow passes a row of boxes.
struct Node {
    class: Option<usize>,
    row: usize,
    x: f64,
}

impl Node {
    fn width(&self) -> f64 {
        if self.class.is_some() { BOX[0] } else { 6.0 }
    }
}

/// The picture of one group while it is laid out: rows of nodes, the top one first, and each arrow's way from a class up to another.
struct Picture<'a> {
    fleet: &'a Fleet,
    nodes: Vec<Node>,
    rows: Vec<Vec<usize>>,
    ways: Vec<Vec<usize>>,
}

/// The figure of a group.
pub fn figure(fleet: &Fleet, group: &Group) -> String {
    let mut picture = Picture::of(fleet, group);
    picture.untangle();
    let [width, height] = picture.place();
    let letter = &group.letter;
    let (arrows, boxes) = (picture.arrows(width), picture.boxes());
    format!(
        "<figure><div class=\"s\" tabindex=\"0\" role=\"region\" aria-label=\"Picture of group {letter}\">\
         <svg viewBox=\"0 0 {width} {height}\" width=\"{width}\" height=\"{height}\" role=\"group\" aria-labelledby=\"t-{letter} d-{letter}\">\
         <title id=\"t-{letter}\">Group {letter}: where a guest may go</title><desc id=\"d-{letter}\">{}</desc>\n{arrows}{boxes}</svg></div>\
         <figcaption>Group {letter}</figcaption></figure>\n",
        escaped(&described(fleet, group))
    )
}

/// All moves of the group in words.
fn described(fleet: &Fleet, group: &Group) -> String {
    let told = |from: usize| {
        let to = fleet.moves.rises[from].as_deref().filter(|to| !to.is_empty())?;
        let names: Vec<String> = to.iter().map(|class| fleet.classes[*class].name.clone()).collect();
        Some(format!("from {} to {}", fleet.classes[from].name, listed(&names)))
    };
    let told: Vec<String> = group.classes.clone().filter_map(told).collect();
    if told.is_empty() { "No guest may leave its class.".into() } else { format!("A guest may move {}.", told.join("; ")) }
}

/// The classes next above one: those that it rises to, and to which no other leads.
pub fn next_above(fleet: &Fleet, class: usize) -> Vec<usize> {
    let rises = |from: usize| fleet.moves.rises[from].as_deref().unwrap_or_default();
    rises(class).iter().copied().filter(|to| !rises(class).iter().any(|between| rises(*between).contains(to))).collect()
}

impl<'a> Picture<'a> {
    fn of(fleet: &'a Fleet, group: &Group) -> Picture<'a> {
        let mut picture = Picture { fleet, nodes: vec![], rows: vec![], ways: vec![] };
        let height = |class: usize| picture.fleet.moves.rises[class].as_ref().map_or(0, |_| longest(fleet, class));
        let mut levels: Vec<(usize, Vec<usize>)> = vec![];
        for class in group.classes.clone() {
            let level = height(class);
            match levels.iter_mut().find(|(known, _)| *known == level) {
                Some((_, classes)) => classes.push(class),
                None => levels.push((level, vec![class])),
            }
        }
        levels.sort_by_key(|(level, _)| *level);
        for row in levels.iter().flat_map(|(_, classes)| classes.chunks(ROW)) {
            let place = picture.rows.len();
            let nodes = row.iter().map(|class| picture.put(Some(*class), place)).collect();
            picture.rows.push(nodes);
        }
        for from in group.classes.clone() {
            for to in next_above(fleet, from) {
                picture.lead(from, to);
            }
        }
        picture
    }

    fn put(&mut self, class: Option<usize>, row: usize) -> usize {
        self.nodes.push(Node { class, row, x: 0.0 });
        self.nodes.len() - 1
    }

    fn node(&self, class: usize) -> usize {
        self.nodes.iter().position(|node| node.class == Some(class)).expect("every class has a box")
    }

    /// An arrow, with a place in each row that it passes.
    fn lead(&mut self, from: usize, to: usize) {
        let (from, to) = (self.node(from), self.node(to));
        let mut way = vec![from];
        for row in (self.nodes[to].row + 1..self.nodes[from].row).rev() {
            let passed = self.put(None, row);
            self.rows[row].push(passed);
            way.push(passed);
        }
        way.push(to);
        self.ways.push(way);
    }

    /// Puts each node of a row near the middle of those that it leads to, and of those that lead to it.
    fn untangle(&mut self) {
        for _ in 0..6 {
            self.place();
            for row in 0..self.rows.len() {
                self.sort(row);
            }
            self.place();
            for row in (0..self.rows.len()).rev() {
                self.sort(row);
            }
        }
    }

    fn sort(&mut self, row: usize) {
        let middle = |node: usize| {
            let steps = self.ways.iter().flat_map(|way| way.windows(2)).filter(|step| step.contains(&node));
            let beside: Vec<f64> = steps.map(|step| self.nodes[if step[0] == node { step[1] } else { step[0] }].x).collect();
            if beside.is_empty() { self.nodes[node].x } else { beside.iter().sum::<f64>() / beside.len() as f64 }
        };
        let mut nodes: Vec<(usize, f64)> = self.rows[row].iter().map(|node| (*node, middle(*node))).collect();
        nodes.sort_by(|a, b| a.1.total_cmp(&b.1));
        self.rows[row] = nodes.into_iter().map(|(node, _)| node).collect();
        self.place();
    }

    /// Gives every node its middle from left to right, each row centred, and answers width and height.
    fn place(&mut self) -> [f64; 2] {
        let width = |row: &Vec<usize>| row.iter().map(|node| self.nodes[*node].width() + ACROSS).sum::<f64>() - ACROSS;
        let widths: Vec<f64> = self.rows.iter().map(width).collect();
        let widest = widths.iter().copied().fold(LEAST, f64::max) + 2.0 * MARGIN;
        for (row, width) in self.rows.iter().zip(widths) {
            let mut left = (widest - width) / 2.0;
            for node in row {
                let node = &mut self.nodes[*node];
                node.x = left + node.width() / 2.0;
                left += node.width() + ACROSS;
            }
        }
        [widest, 2.0 * MARGIN + self.rows.len() as f64 * (BOX[1] + UP) - UP]
    }

    /// The upper edge of a row.
    fn top(&self, node: usize) -> f64 {
        MARGIN + self.nodes[node].row as f64 * (BOX[1] + UP)
    }

    /// Where an arrow leaves a box or comes to it: the arrows of a box share its edge in the order of where they go.
    fn touch(&self, way: usize, upper: bool) -> f64 {
        let end = |way: &Vec<usize>| if upper { way[way.len() - 1] } else { way[0] };
        let next = |way: &Vec<usize>| self.nodes[if upper { way[way.len() - 2] } else { way[1] }].x;
        let node = end(&self.ways[way]);
        let mut shared: Vec<usize> = (0..self.ways.len()).filter(|other| end(&self.ways[*other]) == node).collect();
        shared.sort_by(|a, b| next(&self.ways[*a]).total_cmp(&next(&self.ways[*b])));
        let place = shared.iter().position(|other| *other == way).unwrap_or(0) as f64;
        let step = (BOX[0] - 24.0) / shared.len().max(2) as f64;
        self.nodes[node].x + (place - (shared.len() as f64 - 1.0) / 2.0) * step.min(16.0)
    }

    fn arrows(&self, width: f64) -> String {
        let (mut text, mut labels) = (String::new(), Labels { width, text: String::new(), taken: vec![] });
        for (place, way) in self.ways.iter().enumerate() {
            let [mut x, mut y] = [self.touch(place, false), self.top(way[0])];
            let mut path = format!("M{x:.1} {y:.1}");
            for (step, node) in way.iter().enumerate().skip(1) {
                let last = step == way.len() - 1;
                let to = [if last { self.touch(place, true) } else { self.nodes[*node].x }, self.top(*node) + BOX[1] + if last { 2.0 } else { 0.0 }];
                let middle = (y + to[1]) / 2.0;
                let _ = write!(path, "C{x:.1} {middle:.1} {:.1} {middle:.1} {:.1} {:.1}", to[0], to[0], to[1]);
                if step == 1 {
                    labels.put(&self.gained(way), [x, y], to);
                }
                [x, y] = to;
                if !last {
                    y = self.top(*node);
                    let _ = write!(path, "L{x:.1} {y:.1}");
                }
            }
            let _ = writeln!(text, "<path class=\"way\" marker-end=\"url(#arrow)\" d=\"{path}\"/>");
        }
        text + &labels.text
    }

    /// What the class above has more, in a word or two.
    fn gained(&self, way: &[usize]) -> String {
        let class = |node: usize| self.nodes[node].class.map(|class| &self.fleet.classes[class]);
        let (Some(from), Some(to)) = (class(way[0]), class(way[way.len() - 1])) else { return String::new() };
        let names = bits::names(&bits::lacked(&to.table, &from.table));
        let all = names.join(" ");
        if all.len() <= 14 { format!("+{all}") } else { format!("+{}", many(names.len(), "bit")) }
    }

    fn boxes(&self) -> String {
        let boxes = self.nodes.iter().enumerate().filter_map(|(place, node)| Some((place, node, &self.fleet.classes[node.class?])));
        let drawn = |(place, node, class): (usize, &Node, &Class)| {
            let (name, servers) = (&class.name, many(class.servers.len(), "server"));
            let [left, top] = [node.x - BOX[0] / 2.0, self.top(place)];
            format!(
                "<a href=\"#{name}\" aria-label=\"{name}, {servers}\">\
                 <rect class=\"box\" x=\"{left:.1}\" y=\"{top:.1}\" width=\"{}\" height=\"{}\" rx=\"4\"/>\
                 <text class=\"n1\" x=\"{:.1}\" y=\"{:.1}\">{name}</text><text class=\"n2\" x=\"{:.1}\" y=\"{:.1}\">{servers}</text></a>\n",
                BOX[0],
                BOX[1],
                node.x,
                top + 18.0,
                node.x,
                top + 34.0
            )
        };
        boxes.map(drawn).collect()
    }
}

/// The longest way up from a class.
fn longest(fleet: &Fleet, class: usize) -> usize {
    next_above(fleet, class).into_iter().map(|to| longest(fleet, to) + 1).max().unwrap_or(0)
}

/// The words on arrows: none stands over another. What finds no room is left out, as the table beneath has it.
struct Labels {
    width: f64,
    text: String,
    taken: Vec<[f64; 4]>,
}

impl Labels {
    fn put(&mut self, words: &str, from: [f64; 2], to: [f64; 2]) {
        let half = words.len() as f64 * 4.0 + 3.0;
        for share in [0.5, 0.3, 0.68] {
            // the arrow is a curve: across it is where its middle is
            let across = share * share * (3.0 - 2.0 * share);
            let [x, y] = [from[0] + across * (to[0] - from[0]), from[1] + share * (to[1] - from[1])];
            let room = [x - half, y - 8.0, x + half, y + 6.0];
            let free = |taken: &[f64; 4]| room[2] < taken[0] || taken[2] < room[0] || room[3] < taken[1] || taken[3] < room[1];
            if self.taken.iter().all(free) && room[0] >= 0.0 && room[2] <= self.width {
                self.taken.push(room);
                let _ = writeln!(self.text, "<text class=\"gain\" x=\"{x:.1}\" y=\"{:.1}\">{}</text>", y + 3.0, escaped(words));
                return;
            }
        }
    }
}
