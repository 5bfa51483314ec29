//! Pools: the greatest sets of classes for which the library makes one table.

use super::bits::{self, Bits};
use super::{Class, Group};
use crate::source::pool_tables;
use snp_cpuid::{MOST_SERVERS, Table};
use std::collections::HashSet;

/// So many sets of a group are looked for: where states differ in size, there may be as many as classes.
const MOST_SETS: usize = 16;

/// Classes with one table for all their servers. No further class of their group can join them.
pub struct Pool {
    pub classes: Vec<usize>,
    pub table: Table,
    /// what some of them have and the pool has not
    pub lost: Vec<Lost>,
}

/// A feature bit that the pool lost, and the classes that lack it.
pub struct Lost {
    pub bits: Bits,
    /// in order
    pub lacking: Vec<usize>,
}

impl Pool {
    /// What a class costs: the bits that it alone lacks.
    pub fn cost(&self, class: usize) -> Vec<Bits> {
        self.lost.iter().filter(|lost| lost.lacking == [class]).map(|lost| lost.bits).collect()
    }

    /// How many bits the servers of a class give up.
    pub fn given_up(&self, class: usize) -> usize {
        self.lost.iter().filter(|lost| lost.lacking.binary_search(&class).is_err()).count()
    }
}

/// The pools of two classes or more, those of most servers first.
pub fn of(groups: &[Group], classes: &[Class]) -> Vec<Pool> {
    let sets = groups.iter().filter(|group| group.classes.len() > 1).flat_map(|group| greatest(group, classes));
    let mut pools: Vec<Pool> = sets.filter(|set| set.classes.len() > 1).map(|set| set.costed(classes)).collect();
    let servers = |pool: &Pool| pool.classes.iter().map(|class| classes[*class].servers.len()).sum::<usize>();
    pools.sort_by_key(|pool| std::cmp::Reverse(servers(pool)));
    pools
}

/// Classes that share a table.
struct Set {
    classes: Vec<usize>,
    table: Table,
}

impl Set {
    /// Takes a class in, if the library pools it with the table so far.
    fn take(&mut self, class: usize, classes: &[Class]) -> bool {
        let Ok(table) = pool_tables(&[self.table.clone(), classes[class].table.clone()]) else { return false };
        self.table = table;
        self.classes.push(class);
        true
    }

    /// The pool of these classes, asked of the library in one question where it takes so many.
    fn costed(mut self, classes: &[Class]) -> Pool {
        self.classes.sort();
        let tables: Vec<Table> = self.classes.iter().map(|class| classes[*class].table.clone()).collect();
        let lost = lost(&tables.iter().collect::<Vec<_>>(), &self.classes);
        let table = if tables.len() <= MOST_SERVERS { pool_tables(&tables).unwrap_or(self.table) } else { self.table };
        Pool { classes: self.classes, table, lost }
    }
}

/// The greatest sets of a group. A class of few states comes first: where it lacks a state, the others need not agree on that state's row.
fn greatest(group: &Group, classes: &[Class]) -> Vec<Set> {
    let mut order: Vec<usize> = group.classes.clone().collect();
    order.sort_by_key(|class| classes[*class].table.max_extended_state().count_ones());
    let mut sets: Vec<Set> = vec![];
    for &class in &order {
        if !sets.iter_mut().any(|set| set.take(class, classes)) && sets.len() < MOST_SETS {
            sets.push(Set { classes: vec![class], table: classes[class].table.clone() });
        }
    }
    // a class that another set has taken may join this one too, and make room for a further one
    for set in &mut sets {
        let inside: HashSet<usize> = set.classes.iter().copied().collect();
        let mut outside: Vec<usize> = order.iter().copied().filter(|class| !inside.contains(class)).collect();
        loop {
            let before = outside.len();
            outside.retain(|class| !set.take(*class, classes));
            if outside.len() == before {
                break;
            }
        }
    }
    sets
}

/// The bits that some of these tables have and some have not, one by one, with the classes that lack each.
fn lost(tables: &[&Table], classes: &[usize]) -> Vec<Lost> {
    let mut lost = vec![];
    for bits in bits::differing(tables) {
        for bit in bits.each() {
            let one = Bits { value: 1 << bit.bit, ..bits };
            let lacks = |table: &Table| bits::value(table, one.register) & one.value == 0;
            let lacking = classes.iter().zip(tables).filter(|(_, table)| lacks(table)).map(|(class, _)| *class).collect();
            lost.push(Lost { bits: one, lacking });
        }
    }
    lost
}
