//! Servers without a table: by the refusal's number, then by its words, those with SEV-SNP first.

use super::{Answer, Server, Why};
use crate::meanings;
use std::collections::BTreeMap;

/// Servers that one refusal was given for.
pub struct Refused {
    /// the refusal's number; 0 where a file is damaged
    pub number: u32,
    /// what it says about the place where the file was made
    pub place: &'static str,
    /// by the refusal's words, which name a leaf or a size
    pub told: Vec<Told>,
}

/// Servers that are refused in the same words.
pub struct Told {
    pub words: String,
    /// the places of those whose processor has SEV-SNP, and of the others
    pub with_snp: Vec<usize>,
    pub without: Vec<usize>,
}

impl Told {
    /// All its servers, those with SEV-SNP first.
    pub fn servers(&self) -> Vec<usize> {
        [&self.with_snp[..], &self.without].concat()
    }

    /// The two lots of servers that are not empty, each under its heading.
    pub fn lots(&self) -> impl Iterator<Item = (&'static str, &[usize])> {
        [("with SEV-SNP", &self.with_snp[..]), ("without SEV-SNP", &self.without)].into_iter().filter(|(_, servers)| !servers.is_empty())
    }
}

impl Refused {
    /// How many servers it was given for.
    pub fn many(&self) -> usize {
        self.told.iter().map(|told| told.with_snp.len() + told.without.len()).sum()
    }
}

/// The servers without a table, in the order of the refusals' numbers and words.
pub fn together(servers: &[Server], whys: &[Why]) -> Vec<Refused> {
    let mut by_why: Vec<Vec<usize>> = whys.iter().map(|_| vec![]).collect();
    for (place, server) in servers.iter().enumerate() {
        if let Answer::Without(why) = server.answer {
            by_why[why as usize].push(place);
        }
    }
    let mut reasons: BTreeMap<(u32, String), [Vec<usize>; 2]> = BTreeMap::new();
    for (why, servers) in whys.iter().zip(by_why) {
        let (reason, has_snp) = match why {
            Why::Refused { refusal, has_snp, .. } => ((refusal.number(), refusal.to_string()), *has_snp),
            Why::Unread(words) => ((0, words.clone()), false),
        };
        reasons.entry(reason).or_default()[usize::from(!has_snp)].extend(servers);
    }
    let mut together: Vec<Refused> = vec![];
    for ((number, words), mut lots) in reasons {
        if together.last().is_none_or(|last| last.number != number) {
            together.push(Refused { number, place: meanings::place(number), told: vec![] });
        }
        // one refusal in the same words may have several reasons
        lots.iter_mut().for_each(|servers| servers.sort_unstable());
        let [with_snp, without] = lots;
        together.last_mut().expect("it was put there").told.push(Told { words, with_snp, without });
    }
    together.iter_mut().for_each(|refused| refused.told.sort_by_key(|told| told.with_snp.is_empty()));
    together
}
