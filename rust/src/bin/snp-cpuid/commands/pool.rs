//! `pool`: one table for a pool of servers, and what each of them cost it.

use crate::arguments::Arguments;
use crate::building::{self, Building};
use crate::command::Command;
use crate::failure::Failure;
use crate::features::{FEATURES, FeatureBit, FeatureRegister, REGISTERS};
use crate::fleet::bits::value;
use crate::json::{self, Json, array, object};
use crate::option::Opt;
use crate::output;
use crate::print::{self, Form, bit_json};
use crate::reasons::{self, Reason};
use crate::source::{Source, pool_tables};
use crate::standing::Standing;
use snp_cpuid::{MOST_SERVERS, NotPooled, Refusal, Table};
use std::collections::BTreeMap;
use std::ops::RangeInclusive;

const IMAGE: Opt = output::file_or_standard_output("IMAGE");

/// How many servers the library pools at once.
const POOL: RangeInclusive<usize> = 2..=MOST_SERVERS;

pub const COMMAND: Command = Command {
    name: "pool",
    operands: &["PAGES.."],
    options: &[&[IMAGE, print::ORIGINS, json::OPTION], building::OPTIONS],
    summary: "print or write one table for a pool of servers",
    about: "\
Makes one table of two servers or more, for a guest that moves between them: a feature bit or an
extended state is in it where every server's table has it, the save area is that of the states that
are left, and all else is the first server's. With -o the table is written as bytes, in the form of
'image', and a note has its fingerprint; without, it is printed as by 'table', and --origins says
where a row stands in the first server's pages. The library pools 16 page sets at once. PAGES may be
an image too, also that of another pool, and there may be more than 16: then tables are pooled, one
after the other, and nobody knows where the pool's rows came from.

Notes on standard error say which feature bits each server cost the pool: those that the tables of
all other servers have and its own has not. A bit that more than one server lacks is no single
server's cost; further notes name such bits with the servers that lack them.
",
    status: "\
Exit status: 0 accepted, 1 refused (18 fewer than 2 servers; then the first server that is refused
by itself, under its file's name; then 19 the servers differ, in a row that all their tables have,
elsewhere than in feature bits or D.0.ECX, and notes name the server, leaf and register), 2 bad
usage or a file that cannot be read or written.
",
    run,
};

fn run(arguments: &Arguments) -> Result<(), Failure> {
    let files = &arguments.operands;
    output::json_apart(arguments, COMMAND.name)?;
    let building = Building::of(arguments, COMMAND.name)?;
    let sources = files.iter().map(|file| building.source(file)?.into_pages(&building)).collect::<Result<Vec<_>, _>>()?;
    building.heeded_by(&sources)?;
    let tables = sources.iter().map(Source::table).collect::<Vec<_>>();
    let table = pooled(building, &sources, &tables)?;
    let tables: Vec<Table> = tables.into_iter().map(|table| table.expect("a pool's servers are accepted")).collect();
    let names = sources.into_iter().map(|source| source.file).collect();
    let servers = Servers { names, tables };
    let printed = if building.json() {
        let answer = object([("answer", "accepted".into()), ("edition", building.edition().into()), ("image", output::file_json(arguments))]);
        answer.with(servers.json()).with(super::table::members(&table, table.fingerprint())).to_string()
    } else if arguments.has(&IMAGE) {
        String::new()
    } else {
        super::table::text(&table, Form::of(arguments), table.fingerprint())
    };
    if arguments.has(&IMAGE) {
        output::write_and_print(arguments, &table.image(), &printed)?;
    } else {
        output::print(printed)?;
    }
    if building.json() {
        return Ok(());
    }
    servers.notes().iter().for_each(|note| output::note(note));
    if arguments.has(&IMAGE) {
        output::note(&format!("fingerprint {}", table.fingerprint()));
    }
    Ok(())
}

/// The table of the pool: of the servers' pages, or, where one of them is an image or the library does not take so many at once, of pages that have
/// the rows of their tables.
fn pooled(building: Building, sources: &[Source], tables: &[Result<Table, Refusal>]) -> Result<Table, Failure> {
    let refused = |not: NotPooled| refused(building, sources, not);
    if sources.len() <= *POOL.end() && sources.iter().all(|source| source.image.is_none()) {
        return building.pool(&sources.iter().map(|source| &source.pages).collect::<Vec<_>>()).map_err(refused);
    }
    if sources.len() < *POOL.start() {
        return Err(refused(NotPooled { refusal: Refusal::PoolSets, server: None }));
    }
    let own =
        |(server, table): (usize, &Result<Table, Refusal>)| table.clone().map_err(|refusal| refused(NotPooled { refusal, server: Some(server) }));
    let tables = tables.iter().enumerate().map(own).collect::<Result<Vec<_>, _>>()?;
    if POOL.contains(&tables.len()) { pool_tables(&tables).map_err(refused) } else { chained(tables).map_err(refused) }
}

/// The pool of more servers than the library takes at once: of the pool so far and a further one, each time. One that differs in the row of a state
/// waits until another that lacks the state has joined.
fn chained(tables: Vec<Table>) -> Result<Table, NotPooled> {
    let mut left = tables.into_iter();
    let mut pooled = left.next().expect("a pool has servers");
    let mut left: Vec<Table> = left.collect();
    while !left.is_empty() {
        let (before, mut last) = (left.len(), None);
        left.retain(|table| match pool_tables(&[pooled.clone(), table.clone()]) {
            Ok(joined) => {
                pooled = joined;
                false
            }
            Err(not) => {
                last = Some(not);
                true
            }
        });
        if let Some(not) = last.filter(|_| left.len() == before) {
            // of these two servers nobody asked
            return Err(NotPooled { server: None, ..not });
        }
    }
    Ok(pooled)
}

/// A server's own refusal under its name, or the pool's.
fn refused(building: Building, sources: &[Source], NotPooled { refusal, server }: NotPooled) -> Failure {
    match (server.map(|server| &sources[server]), refusal) {
        (Some(source), _) => building.refused(&source.file, refusal, &building.reason(refusal, &source.pages)),
        (None, Refusal::PoolSets) => building.refused("the pool", refusal, &reasons::of_pool_size(sources.len())),
        (None, _) => building.refused("the pool", refusal, &unlike(building, sources)),
    }
}

/// Where the servers of a pool that is refused by 19 differ from the first.
fn unlike(building: Building, sources: &[Source]) -> Reason {
    let servers: Vec<(&str, Standing, Table)> =
        sources.iter().filter_map(|source| Some((source.file.as_str(), Standing::of(&source.pages), source.table().ok()?))).collect();
    reasons::of_pool(&servers, building.secure_avic())
}

/// The servers of a pool.
struct Servers {
    names: Vec<String>,
    tables: Vec<Table>,
}

impl Servers {
    /// The feature bits that some server has and another has not, each with the servers that lack it.
    fn lacking(&self) -> Vec<(FeatureBit, Vec<usize>)> {
        let of_register = |register: &'static FeatureRegister| {
            let values: Vec<u32> = self.tables.iter().map(|table| value(table, register)).collect();
            let some = values.iter().fold(0, |any, value| any | value);
            let lackers = move |bit: u32| values.iter().enumerate().filter(|(_, value)| *value >> bit & 1 == 0).map(|(place, _)| place).collect();
            register.bits_of(some).map(move |bit| (bit, lackers(bit.bit)))
        };
        FEATURES.iter().flat_map(of_register).filter(|(_, lackers): &(_, Vec<usize>)| !lackers.is_empty()).collect()
    }

    /// The bits by the servers that lack them.
    fn by_servers(&self) -> BTreeMap<Vec<usize>, Vec<FeatureBit>> {
        let mut groups: BTreeMap<Vec<usize>, Vec<FeatureBit>> = BTreeMap::new();
        self.lacking().into_iter().for_each(|(bit, lackers)| groups.entry(lackers).or_default().push(bit));
        groups
    }

    /// What each server cost the pool alone, and then what several lack.
    fn notes(&self) -> Vec<String> {
        let groups = self.by_servers();
        let cost = |place: usize| groups.get(&vec![place]).map_or("no feature bit".into(), |bits| named(bits));
        let alone = self.names.iter().enumerate().map(|(place, name)| format!("{name} cost the pool {}", cost(place)));
        let several = groups.iter().filter(|(lackers, _)| lackers.len() > 1);
        alone.chain(several.map(|(lackers, bits)| format!("{} lack {}", self.listed(lackers), named(bits)))).collect()
    }

    fn listed(&self, places: &[usize]) -> String {
        let names: Vec<&str> = places.iter().map(|place| self.names[*place].as_str()).collect();
        let (last, before) = names.split_last().expect("servers that lack something");
        format!("{} and {last}", before.join(", "))
    }

    fn json(&self) -> [(&'static str, Json); 2] {
        let groups = self.by_servers();
        let bits = |places: &[usize]| array(groups.get(places).into_iter().flatten().map(bit_json));
        let server = |(place, name): (usize, &String)| object([("file", name.as_str().into()), ("cost", bits(&[place]))]);
        let lacked = |(lackers, bits): (&Vec<usize>, &Vec<FeatureBit>)| {
            let servers = array(lackers.iter().map(|place| self.names[*place].as_str()));
            object([("servers", servers), ("bits", array(bits.iter().map(bit_json)))])
        };
        let several = groups.iter().filter(|(lackers, _)| lackers.len() > 1).map(lacked);
        [("servers", array(self.names.iter().enumerate().map(server))), ("lacked_by_several", array(several))]
    }
}

/// The names of feature bits in their order, each register's before its place.
fn named(bits: &[FeatureBit]) -> String {
    let place = |bit: &FeatureBit| (bit.leaf, bit.subleaf, bit.register);
    let of = |bits: &[FeatureBit]| {
        let names: Vec<&str> = bits.iter().map(|bit| bit.name).collect();
        format!("{} ({} {})", names.join(" "), print::place(bits[0].leaf, bits[0].subleaf), REGISTERS[bits[0].register])
    };
    bits.chunk_by(|a, b| place(a) == place(b)).map(of).collect::<Vec<_>>().join(", ")
}
