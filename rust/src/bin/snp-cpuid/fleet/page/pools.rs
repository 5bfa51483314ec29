//! The part of the page on pools: what one table for several classes costs, and whom to leave out to keep a feature.

use super::super::pools::{Lost, Pool};
use super::super::text::{listed, losses, many, pool_name, servers_of};
use super::super::{Fleet, groups};
use super::features::{class_columns, named};
use super::html::{column, escaped, folded, mark, table};
use super::{MOST_GROUPS, link, links};

/// So many classes stand side by side; of more, those that lack a feature are listed.
const ACROSS: usize = 12;

pub fn of(fleet: &Fleet) -> String {
    if fleet.pools.is_empty() {
        return String::new();
    }
    let words = "<p>A pool is one table for several servers: the features that all of them have. A guest with that table may go to each of them. \
                 No further class can join the pools that stand here, and one server of each class stands for all of its class.</p>\n";
    words.to_string() + &fleet.pools.iter().take(MOST_GROUPS).enumerate().map(|(place, pool)| one(fleet, place, pool)).collect::<String>()
}

fn one(fleet: &Fleet, place: usize, pool: &Pool) -> String {
    let (servers, classes) = (many(servers_of(fleet, &pool.classes), "server"), many(pool.classes.len(), "class"));
    let title = escaped(&pool_name(fleet, pool));
    let size = format!("{} rows, save area {} bytes", pool.table.rows().count(), groups::save_area(&pool.table));
    let mut text = format!("<h3>{title}: {servers} in {classes}</h3>\n<p>{} <span class=\"d\">Its table: {size}.</span></p>\n", costs(fleet, pool));
    let few = pool.classes.len() <= ACROSS;
    let across = if few { class_columns(fleet, &pool.classes) } else { String::new() };
    let head = column("The pool is without") + &across + &column("To keep it, leave out");
    let rows: String = if few { pool.lost.iter().map(|lost| row(fleet, pool, lost)).collect() } else { grouped(fleet, pool) };
    let given: String = pool.classes.iter().map(|class| format!("<td>{}</td>", pool.given_up(*class))).collect();
    let foot = format!("<tfoot><tr><th scope=\"row\">Bits that a class gives up</th>{given}<td></td></tr></tfoot>");
    let foot = if few { foot } else { String::new() };
    let kind = if few { "x pl" } else { "f" };
    text += &table(
        &format!("c-pool-{place}"),
        kind,
        &format!("{title}: what the pool is without, and who lacks it"),
        &head,
        &format!("<tbody>{rows}</tbody>{foot}"),
    );
    text
}

/// What single classes cost.
fn costs(fleet: &Fleet, pool: &Pool) -> String {
    let cost = |class: &usize| {
        let names: Vec<&str> = pool.cost(*class).iter().flat_map(|bits| bits.names()).collect();
        let told = if names.len() > 6 { format!("{} features", names.len()) } else { format!("<b>{}</b>", names.join(" ")) };
        (!names.is_empty()).then(|| format!("{} costs {told}", link(fleet, *class)))
    };
    let costs: Vec<String> = pool.classes.iter().filter_map(cost).collect();
    match costs.len() {
        0 => "No single class costs it anything: what it is without, more than one class lacks.".into(),
        _ => format!("Alone, {}.", listed(&costs)),
    }
}

fn row(fleet: &Fleet, pool: &Pool, lost: &Lost) -> String {
    let cell = |class: &usize| {
        if lost.lacking.contains(class) {
            format!("<td class=\"ne\">{}</td>", mark("not", "has it not"))
        } else {
            format!("<td>{}</td>", mark("has", "has it"))
        }
    };
    let cells: String = pool.classes.iter().map(cell).collect();
    let name = lost.bits.names().concat();
    format!(
        "<tr data-lost=\"{name}\"><th scope=\"row\" class=\"fh\">{}</th>{cells}<td class=\"l\">{}</td></tr>\n",
        named(&lost.bits),
        left_out(fleet, &lost.lacking)
    )
}

/// Whom to leave out, with how many servers.
fn left_out(fleet: &Fleet, lacking: &[usize]) -> String {
    format!("{} <small>({})</small>", links(fleet, lacking), many(servers_of(fleet, lacking), "server"))
}

/// A row for the features that the same classes lack.
fn grouped(fleet: &Fleet, pool: &Pool) -> String {
    let row = |(lacking, names): (Vec<usize>, Vec<String>)| {
        format!("<tr data-lost=\"{}\"><td><b>{}</b></td><td>{}</td></tr>\n", names.join(" "), folded(&names), left_out(fleet, &lacking))
    };
    losses(pool).into_iter().map(row).collect()
}
