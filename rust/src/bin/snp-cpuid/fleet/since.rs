//! What changed in a fleet since a report of before: which servers came, went, or give another table.

use super::bits::{self, names};
use super::text::{listed, many};
use super::{Fleet, Server, data};
use crate::differences::differences;
use crate::failure::Failure;
use crate::input::{not_read, open, shown};
use crate::json::{Json, Part, array, object};
use crate::json_read::{Reader, Value};
use crate::wrap::wrapped_in;
use snp_cpuid::{Fingerprint, Table};
use std::collections::BTreeMap;
use std::ffi::OsStr;
use std::io::{BufRead, BufReader, Read};
use std::rc::Rc;

/// What a server gave: the fingerprint of its table; none where it was refused.
type Gave<Name> = BTreeMap<Name, Option<Fingerprint>>;

/// A report of before: what each server gave, and the tables by their fingerprints.
pub struct Before {
    servers: Gave<Box<str>>,
    tables: BTreeMap<Fingerprint, Table>,
}

/// A server that gives something else.
struct Changed<'a> {
    name: &'a str,
    from: Option<Fingerprint>,
    to: Option<Fingerprint>,
    by: Rc<By>,
}

/// What two tables differ in; nothing where one of them is none.
#[derive(Default)]
struct By {
    has: Vec<&'static str>,
    lacks: Vec<&'static str>,
    /// how many rows and registers differ elsewhere than in features
    others: usize,
}

/// What changed.
pub struct Since<'a> {
    came: Vec<&'a str>,
    went: Vec<&'a str>,
    changed: Vec<Changed<'a>>,
}

/// What is read of an array's items; none where it is no array, or an item is not as it should be.
type Items<T> = Option<Vec<T>>;

/// The members of a report that are read; none where one is not there.
#[derive(Default)]
struct Members {
    /// the form's version and the choices
    words: BTreeMap<String, Option<String>>,
    servers: Option<Items<(Box<str>, Option<Fingerprint>)>>,
    tables: Option<Items<(Fingerprint, Table)>>,
}

/// So many bytes are read of a report: a million servers take 300 MB.
const MOST_BYTES: u64 = 4 << 30;

/// The members that say what a report is.
const CHOICES: [&str; 3] = ["edition", "secure_avic", "view"];
const VERSION: &str = "version";

impl Members {
    /// Reads a member; of two with one name the first counts.
    fn read(&mut self, reader: &mut Reader<impl BufRead>, name: &str) -> Option<()> {
        match name {
            "servers" if self.servers.is_none() => self.servers = Some(items(reader, server)?),
            "classes" if self.tables.is_none() => self.tables = Some(items(reader, class)?),
            _ => {
                let value = reader.value()?;
                if name == VERSION || CHOICES.contains(&name) {
                    self.words.entry(name.into()).or_insert_with(|| value.word().map(String::from));
                }
            }
        }
        Some(())
    }

    fn word(&self, name: &str) -> Option<&str> {
        self.words.get(name)?.as_deref()
    }
}

/// Reads an array, item by item.
fn items<T>(reader: &mut Reader<impl BufRead>, read: fn(&Value) -> Option<T>) -> Option<Items<T>> {
    let mut all = Some(vec![]);
    let is_array = reader.items(|item| {
        all = all.take().zip(read(&item)).map(|(mut all, item)| {
            all.push(item);
            all
        })
    })?;
    Some(all.filter(|_| is_array))
}

fn server(server: &Value) -> Option<(Box<str>, Option<Fingerprint>)> {
    let fingerprint = server.member("fingerprint")?.text().map(str::parse).transpose().ok()?;
    Some((server.member("name")?.text()?.into(), fingerprint))
}

/// The table of a class, which must be of the fingerprint that the report says.
fn class(class: &Value) -> Option<(Fingerprint, Table)> {
    let digits = class.member("image")?.text()?;
    let byte = |at: usize| u8::from_str_radix(digits.get(at..at + 2)?, 16).ok();
    let image: Vec<u8> = (0..digits.len()).step_by(2).map(byte).collect::<Option<_>>()?;
    let table = Table::try_from(&image[..]).ok()?;
    let fingerprint: Fingerprint = class.member("fingerprint")?.text()?.parse().ok()?;
    (table.fingerprint() == fingerprint).then_some((fingerprint, table))
}

impl Before {
    /// The report of a file, which must have been made under the same choices.
    pub fn read(file: &OsStr, fleet: &Fleet) -> Result<Before, Failure> {
        let bad = |why: &str| Failure::Bad(format!("{}: {why}", shown(file)));
        let mut members = Members::default();
        let opened = open(file).map_err(|error| not_read(file, &error))?;
        let mut input = BufReader::with_capacity(1 << 16, opened.take(MOST_BYTES));
        let mut reader = Reader::new(&mut input);
        let read = reader.whole(|reader, name| members.read(reader, name));
        if let Some(error) = reader.failed {
            return Err(not_read(file, &error));
        }
        if input.get_ref().limit() == 0 {
            return Err(bad("longer than 4 GiB"));
        }
        read.ok_or_else(|| bad("is no JSON"))?;
        if members.word(VERSION) != Some(&data::FORM.to_string()) {
            return Err(bad(&format!("is no report of 'fleet --json' in version {} of its form", data::FORM)));
        }
        let choices = [fleet.building.edition().to_string(), fleet.building.secure_avic().to_string(), fleet.view.to_string()];
        if CHOICES.map(|name| members.word(name)) != choices.each_ref().map(|choice| Some(choice.as_str())) {
            return Err(bad("was made under other choices: --edition, --secure-avic and --view must be the same"));
        }
        let (servers, tables) = members.servers.flatten().zip(members.tables.flatten()).ok_or_else(|| bad("is damaged"))?;
        Ok(Before { servers: servers.into_iter().collect(), tables: tables.into_iter().collect() })
    }
}

impl<'a> Since<'a> {
    pub fn of(fleet: &'a Fleet, before: &'a Before) -> Since<'a> {
        let tables: BTreeMap<Fingerprint, &Table> = fleet.classes.iter().map(|class| (class.fingerprint, &class.table)).collect();
        let gave = |server: &'a Server| (server.name(), server.class().map(|class| fleet.classes[class].fingerprint));
        let now: Gave<&str> = fleet.servers.iter().map(gave).collect();
        let came = now.keys().copied().filter(|name| !before.servers.contains_key(*name)).collect();
        let went = before.servers.keys().map(|name| &**name).filter(|name| !now.contains_key(name)).collect();
        // many servers change in the same way
        let mut known: BTreeMap<_, Rc<By>> = BTreeMap::new();
        let pairs = now.iter().filter_map(|(name, to)| Some((*name, *before.servers.get(*name)?, *to)));
        let changed = pairs.filter(|(_, from, to)| from != to).map(|(name, from, to)| {
            let tables = || before.tables.get(&from?).zip(tables.get(&to?).copied());
            let by = known.entry((from, to)).or_insert_with(|| Rc::new(tables().map_or(By::default(), |(old, new)| By::of(old, new))));
            Changed { name, from, to, by: by.clone() }
        });
        let changed = changed.collect();
        Since { came, went, changed }
    }

    /// Whether a server that was there before gives something else.
    pub fn has_changes(&self) -> bool {
        !self.changed.is_empty()
    }

    /// The lines under the report.
    pub fn text(&self, file: &str) -> impl Iterator<Item = String> {
        let head = format!("Since {file}: {} changed\n", many(self.changed.len(), "server"));
        let names = [("came", &self.came), ("went", &self.went)].into_iter().filter(|(_, servers)| !servers.is_empty());
        let names = names.map(|(label, servers)| line(label, &servers.join(" ")));
        [head].into_iter().chain(names).chain(self.changed.iter().map(|changed| line("changed", &changed.told())))
    }

    pub fn json(&self, file: &str) -> Part<'_> {
        let names = |names: &[&str]| array(names.iter().copied()).into();
        let changed = Part::items(self.changed.iter().map(Changed::json));
        Part::Members(vec![("file", file.into()), ("came", names(&self.came)), ("went", names(&self.went)), ("changed", changed)])
    }
}

fn line(label: &str, words: &str) -> String {
    wrapped_in(80, &format!("   {label:9}"), words)
}

impl By {
    fn of(old: &Table, new: &Table) -> By {
        let (has, lacks) = (names(&bits::lacked(new, old)), names(&bits::lacked(old, new)));
        let others = differences(old, new).len() - has.len() - lacks.len();
        By { has, lacks, others }
    }
}

impl Changed<'_> {
    fn told(&self) -> String {
        let gave = |fingerprint: Option<Fingerprint>| fingerprint.map_or("refused".into(), |fingerprint| format!("{fingerprint:.8}"));
        let listed = |names: &[&str]| listed(&names.iter().map(|name| name.to_string()).collect::<Vec<_>>());
        let By { has, lacks, others } = &*self.by;
        let mut parts = vec![format!("{} from {} to {}", self.name, gave(self.from), gave(self.to))];
        parts.extend((!has.is_empty()).then(|| format!("now with {}", listed(has))));
        parts.extend((!lacks.is_empty()).then(|| format!("now without {}", listed(lacks))));
        parts.extend((*others > 0).then(|| format!("{} besides", many(*others, "difference"))));
        parts.join("; ")
    }

    fn json(&self) -> Json {
        let gave = |fingerprint: Option<Fingerprint>| Json::from(fingerprint.map(|fingerprint| fingerprint.to_string()));
        let By { has, lacks, others } = &*self.by;
        object([("name", self.name.into()), ("from", gave(self.from)), ("to", gave(self.to))]).with([
            ("now_has", array(has.iter().copied())),
            ("now_lacks", array(lacks.iter().copied())),
            ("others", (*others).into()),
        ])
    }
}
