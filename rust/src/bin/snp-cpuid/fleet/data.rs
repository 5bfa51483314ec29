//! The report as JSON.

use super::bits::{self, Bits};
use super::differing::{self, Apart, Feature};
use super::groups;
use super::moves::{Way, by_pages, index};
use super::pools::{Lost, Pool};
use super::text::servers_of;
use super::{Answer, Class, Fleet, Group, Server, Why};
use crate::features::REGISTERS;
use crate::json::{Json, Part, array, hex, object};
use crate::print::{bit_json, place_json};
use snp_cpuid::{Comparison, Register, TableComparison};

/// Beyond so many classes the moves are not listed pair by pair.
const MOST_LISTED: usize = 100;

/// The version of this form: it rises where a member goes or means something else.
pub const FORM: u32 = 1;

/// The report: what there is one of for each server or class is made when it is written.
pub fn of<'a>(fleet: &'a Fleet, since: Option<Part<'a>>) -> Part<'a> {
    let place = |class: &usize| fleet.classes[*class].name.as_str();
    let answer = match fleet.accepted() {
        0 => "all refused",
        accepted if accepted == fleet.servers.len() => "accepted",
        _ => "some refused",
    };
    let fingerprints: Vec<String> = fleet.classes.iter().map(|class| class.fingerprint.to_string()).collect();
    let unread = |each: &super::Unread| object([("file", each.file.as_str().into()), ("why", each.why.as_str().into())]);
    let apart_in = differing::apart(&fleet.groups.iter().collect::<Vec<_>>(), &fleet.classes);
    let members = [
        ("answer", answer.into()),
        ("version", FORM.into()),
        ("tool", crate::VERSION.trim_end().into()),
        ("edition", fleet.building.edition().into()),
        ("secure_avic", fleet.building.secure_avic().into()),
        ("view", fleet.view.into()),
        ("accepted", fleet.accepted().into()),
        ("refused", (fleet.servers.len() - fleet.accepted()).into()),
        ("servers", Part::items(fleet.servers.iter().map(move |each| server(fleet, each, &fingerprints)))),
        ("groups", Part::items(fleet.groups.iter().map(|each| group(fleet, each)))),
        ("classes", Part::items((0..fleet.classes.len()).map(|each| class(fleet, each)))),
        ("moves", if fleet.classes.len() > MOST_LISTED { Json::Null.into() } else { Part::items(moves(fleet)) }),
        ("pools", Part::items(fleet.pools.iter().map(|each| pool(fleet, each)))),
        ("features", array(differing::features(&fleet.classes).iter().flat_map(|each| feature(fleet, each))).into()),
        ("apart", array(apart_in.iter().map(|each| apart(fleet, each))).into()),
        ("unpromised", Part::items(fleet.moves.unpromised.iter().map(move |(from, to, why)| unpromised(place(from), place(to), why)))),
        ("unlike", Part::items(fleet.moves.unlike.iter().map(|(server, why)| unlike(fleet, *server, why)))),
        ("not_read", Part::items(fleet.not_read.iter().map(unread))),
    ];
    Part::Members(members.into_iter().chain(since.map(|since| ("since", since))).collect())
}

fn names(fleet: &Fleet, classes: &[usize]) -> Json {
    array(classes.iter().map(|class| fleet.classes[*class].name.as_str()))
}

/// A server; the fingerprints are those of the classes.
fn server(fleet: &Fleet, server: &Server, fingerprints: &[String]) -> Json {
    let class = server.class();
    let (answer, refusal, why) = match server.answer {
        Answer::Class { .. } => ("accepted", Json::Null, Json::Null),
        Answer::Without(why) => match &fleet.whys[why as usize] {
            Why::Refused { reason, .. } => ("refused", reason.clone(), Json::Null),
            Why::Unread(why) => ("not read", Json::Null, why.as_str().into()),
        },
    };
    object([
        ("name", server.name().into()),
        ("file", server.file().into()),
        ("kind", server.kind.name().into()),
        ("answer", answer.into()),
        ("class", class.map(|class| fleet.classes[class].name.as_str()).into()),
        ("fingerprint", class.map(|class| fingerprints[class].as_str()).into()),
        ("refusal", refusal),
        ("why", why),
    ])
}

fn group(fleet: &Fleet, group: &Group) -> Json {
    let table = &fleet.classes[group.classes.start].table;
    let (processors, threads) = groups::topology(table);
    object([
        ("name", group.letter.as_str().into()),
        ("processor", groups::processor(table).into()),
        ("signature", groups::signature(table).into()),
        ("logical_processors", processors.into()),
        ("threads_per_core", threads.into()),
        ("servers", group.servers.into()),
        ("classes", names(fleet, &group.classes.clone().collect::<Vec<_>>())),
    ])
}

fn class(fleet: &Fleet, place: usize) -> Json {
    let Class { name, group, servers, table, fingerprint } = &fleet.classes[place];
    object([
        ("name", name.as_str().into()),
        ("fingerprint", fingerprint.to_string().into()),
        ("group", fleet.groups[*group].letter.as_str().into()),
        ("servers", array(fleet.names(servers))),
        ("row_count", table.rows().count().into()),
        ("combined_mask", format!("{:08X}", table.max_extended_state()).into()),
        ("save_area_bytes", groups::save_area(table).into()),
        ("lacks", array(bits::names(&differing::lacks(fleet, place)))),
        ("may_go_to", fleet.moves.rises[place].as_ref().map_or(Json::Null, |to| names(fleet, to))),
        ("image", table.image().iter().map(|byte| format!("{byte:02x}")).collect::<String>().into()),
    ])
}

/// Every ordered pair of classes.
fn moves(fleet: &Fleet) -> impl Iterator<Item = Json> {
    let pairs = (0..fleet.classes.len()).flat_map(|from| (0..fleet.classes.len()).map(move |to| (from, to)));
    pairs.filter(|(from, to)| from != to).map(|(from, to)| one_move(&fleet.classes[from], &fleet.classes[to]))
}

fn one_move(from: &Class, to: &Class) -> Json {
    let way = Way::of(&from.table, &to.table);
    let (answer, leaf, subleaf, at) = match way.first {
        TableComparison::Rises => ("yes", None, None, None),
        TableComparison::NoRow { leaf, subleaf } => ("no row", Some(leaf), subleaf, None),
        TableComparison::Differs { leaf, subleaf, register } => ("differs", Some(leaf), subleaf, Some(register)),
        TableComparison::Beyond { leaf, subleaf } => ("row besides", Some(leaf), subleaf, None),
        _ => ("state lacking", None, None, None),
    };
    object([
        ("from", from.name.as_str().into()),
        ("to", to.name.as_str().into()),
        ("answer", answer.into()),
        ("leaf", leaf.map_or(Json::Null, hex)),
        ("subleaf", subleaf.into()),
        ("register", at.map(|at: Register| REGISTERS[index(at)]).into()),
        ("values", if at.is_some() { array(way.values.map(hex)) } else { Json::Null }),
        ("bits", array(way.bits().iter().flat_map(Bits::names))),
        ("lacks", array(bits::names(&way.lacks))),
    ])
}

fn pool(fleet: &Fleet, pool: &Pool) -> Json {
    let lost = |lost: &Lost| {
        let bit = lost.bits.each().next().expect("one bit");
        bit_json(&bit).with([("lacking", names(fleet, &lost.lacking))])
    };
    let costs = pool.classes.iter().map(|class| {
        let cost = array(bits::names(&pool.cost(*class)));
        object([("class", fleet.classes[*class].name.as_str().into()), ("cost", cost), ("gives_up", pool.given_up(*class).into())])
    });
    object([
        ("classes", names(fleet, &pool.classes)),
        ("servers", servers_of(fleet, &pool.classes).into()),
        ("row_count", pool.table.rows().count().into()),
        ("save_area_bytes", groups::save_area(&pool.table).into()),
        ("costs", array(costs)),
        ("lost", array(pool.lost.iter().map(lost))),
    ])
}

fn feature(fleet: &Fleet, feature: &Feature) -> Vec<Json> {
    let having: Vec<usize> = (0..feature.has.len()).filter(|class| feature.has[*class]).collect();
    feature.bits.each().map(|bit| bit_json(&bit).with([("classes", names(fleet, &having))])).collect()
}

fn apart(fleet: &Fleet, apart: &Apart) -> Json {
    let values =
        fleet.groups.iter().zip(&apart.values).map(|(group, value)| object([("group", group.letter.as_str().into()), ("value", hex(*value))]));
    let register = ("register", REGISTERS[apart.register].into());
    object(place_json(apart.leaf, apart.subleaf)).with([register, ("values", array(values))])
}

fn unpromised(from: &str, to: &str, why: &Comparison) -> Json {
    object([("from", from.into()), ("to", to.into()), ("first", by_pages(why).into())])
}

fn unlike(fleet: &Fleet, server: usize, why: &[Comparison; 2]) -> Json {
    let [to, from] = why.each_ref().map(|answer| if *answer == Comparison::Rises { Json::Null } else { by_pages(answer).into() });
    object([("server", fleet.servers[server].name().into()), ("to_it", to), ("from_it", from)])
}
