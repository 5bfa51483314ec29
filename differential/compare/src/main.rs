//! Compares the port with the unchanged Rust, page set by page set. README.md has the commands.

mod check;
mod families;
mod list;
mod pages;
mod random;
mod run;
mod shrink;
#[cfg(test)]
mod tests;

use std::fs;
use std::process::ExitCode;

const USAGE: &str = "usage: compare [--quick] [--seed NUMBER] [--out FILE] [--list]
  --quick  a sample of each family, in seconds
  --seed   another choice of the random sets (usually 1)
  --out    where a page set that shows a difference is written (usually difference.pages)
  --list   print a sample of the Rust's answers instead (list.txt is that of seed 1)";

struct Options {
    quick: bool,
    list: bool,
    seed: u64,
    out: String,
}

fn options() -> Option<Options> {
    let mut options = Options { quick: false, list: false, seed: 1, out: "difference.pages".into() };
    let mut arguments = std::env::args().skip(1);
    while let Some(argument) = arguments.next() {
        match argument.as_str() {
            "--quick" => options.quick = true,
            "--list" => options.list = true,
            "--seed" => options.seed = arguments.next()?.parse().ok()?,
            "--out" => options.out = arguments.next()?,
            _ => return None,
        }
    }
    Some(options)
}

fn main() -> ExitCode {
    let Some(options) = options() else {
        eprintln!("{USAGE}");
        return ExitCode::from(2);
    };
    if options.list {
        print!("{}", list::list(options.seed));
        return ExitCode::SUCCESS;
    }
    match run::all(&check::PORT, options.quick, options.seed) {
        Ok(summary) => {
            print!("{summary}");
            ExitCode::SUCCESS
        }
        Err(difference) => {
            println!("{difference}");
            match fs::write(&options.out, &difference.case.pages) {
                Ok(()) => println!("page set: {}", options.out),
                Err(error) => println!("page set not written to {}: {error}", options.out),
            }
            ExitCode::FAILURE
        }
    }
}
