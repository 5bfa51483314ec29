//! What a file gives: pages, or the image of a table, which can be turned into pages.

use crate::building::Building;
use crate::failure::Failure;
use crate::inputs::{Given, Input, Kind};
use crate::json::object;
use crate::pages::{Entry, two_pages};
use crate::{output, reasons, words};
use snp_cpuid::{NotPooled, Options, PAGE_BYTES, Refusal, Table, build, pool};

/// The options that change nothing in pages of a table's rows: they keep the secure-AVIC bit where it is set, and clear no more than the table did.
const MADE: Options = Options::new().secure_avic(true);

/// A file.
pub struct Source {
    /// its name, as messages have it
    pub file: String,
    /// what it holds
    pub kind: Kind,
    /// its pages; of an image its bytes or, once that was asked for, pages that have its rows
    pub pages: Vec<u8>,
    /// the table, where it is an image
    pub image: Option<Table>,
    /// the options under which the pages are built
    pub options: Options,
}

/// The table of bytes that are an image and no pages.
pub fn image(bytes: &[u8]) -> Option<Table> {
    if bytes.len() % PAGE_BYTES == 0 { None } else { Table::try_from(bytes).ok() }
}

impl Source {
    /// What was read of a file.
    pub fn new(file: String, Input { kind, given, .. }: Input, options: Options) -> Source {
        match given {
            Given::Pages(pages) => Source { file, kind, pages, image: None, options },
            Given::Table(table) => Source { file, kind, pages: table.image().to_vec(), image: Some(*table), options },
        }
    }

    /// Its table.
    pub fn table(&self) -> Result<Table, Refusal> {
        self.image.clone().map_or_else(|| build(&self.pages, self.options), Ok)
    }

    /// Pages in the place of an image, where the library makes the image's table of them.
    pub fn into_pages(self, building: &Building) -> Result<Source, Failure> {
        let Some(table) = &self.image else { return Ok(self) };
        let pages = pages_of(table);
        match build(&pages, MADE) {
            Ok(again) if again == *table => Ok(Source { pages, options: MADE, ..self }),
            Ok(_) => {
                let words = "no pages give the table of this image";
                let answer = object([("answer", "no".into()), ("file", self.file.as_str().into()), ("words", words.into())]);
                let printed = if building.json() { output::print(answer.to_string()) } else { Ok(()) };
                printed.and(Err(Failure::No { line: format!("{}: {words}", self.file), notes: vec![] }))
            }
            Err(refusal) => Err(building.refused(&self.file, refusal, &reasons::of_pages(refusal, &pages))),
        }
    }
}

/// Two pages whose entries are a table's rows.
fn pages_of(table: &Table) -> Vec<u8> {
    let entry = |row: snp_cpuid::Row| Entry { leaf: row.leaf, subleaf: row.subleaf.unwrap_or(0), registers: words::registers(&row) };
    two_pages(&table.rows().map(entry).collect::<Vec<_>>()).expect("a table has at most 32 rows")
}

/// The pool of tables, by pages that have their rows. An image among them does not say where its rows came from, so nobody knows of the pool's.
pub fn pool_tables(tables: &[Table]) -> Result<Table, NotPooled> {
    let pooled = pool(&tables.iter().map(pages_of).collect::<Vec<_>>(), MADE)?;
    Ok(Table::try_from(&pooled.image()[..]).expect("a pool's table has an image"))
}
