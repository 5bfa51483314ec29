//! The manual page in the mdoc language: the texts of the help, paragraph by paragraph.

use crate::command::Command;
use crate::help;

/// The versions with their days, for the day on the page.
const CHANGELOG: &str = include_str!("../../../../CHANGELOG.md");

const MONTHS: [&str; 12] = ["January", "February", "March", "April", "May", "June", "July", "August", "September", "October", "November", "December"];

/// The most bytes of a line of the source; `mandoc -T lint` allows 80.
const COLUMNS: usize = 76;

const EXIT: &str = "Exit status: ";

/// The page: what the help of the program says, and what that of each command says.
pub fn page(commands: &[Command]) -> String {
    let help = help::of_program(commands);
    let (exit, rest): (Vec<&str>, Vec<&str>) = paragraphs(&help).partition(|paragraph| paragraph.starts_with(EXIT));
    let (options, rest): (Vec<&str>, Vec<&str>) = rest.into_iter().partition(|paragraph| paragraph.starts_with("Options:\n"));
    // the commands have a section of their own
    let rest: Vec<&str> = rest.into_iter().filter(|paragraph| !paragraph.starts_with("Usage: ") && !paragraph.starts_with("Commands:\n")).collect();
    let mut page = head();
    page += ".Sh DESCRIPTION\n";
    page += &body(&rest);
    page += ".Pp\nThe options are:\n";
    page += &options.iter().map(|paragraph| list(paragraph.trim_start_matches("Options:\n"))).collect::<String>();
    page += &format!(".Pp\nThis is the page of version {}.\n.Sh COMMANDS\n", env!("CARGO_PKG_VERSION"));
    page += &commands.iter().map(section).collect::<String>();
    page += FILES;
    page += ".Sh EXIT STATUS\n";
    page += &body(&exit.iter().map(|paragraph| &paragraph[EXIT.len()..]).collect::<Vec<_>>());
    page + &examples() + SEE_ALSO
}

const FILES: &str = "\
.Sh ENVIRONMENT
.Bl -tag -width Ds
.It Ev COLUMNS
how wide lines are, before what the terminal says
.El
.Sh FILES
.Bl -tag -width Ds
.It Pa /dev/kvm
what 'capture \\-\\-kvm' asks
.It Pa /usr/share/doc/snp\\-cpuid/epyc\\-milan.pages
the CPUID pages of an EPYC 7713, to try the commands on
.El
";

/// What is done, and the lines that do it. rust/tests/command/manual.rs runs them.
const EXAMPLES: [(&str, &str); 7] = [
    ("Capture the machine that this runs on, and print its table:", "snp-cpuid capture -o own.pages; snp-cpuid table own.pages"),
    ("Print the table of a dump that a colleague sent:", "snp-cpuid table server.dump"),
    ("Make the pages of a guest of 4 cores with 2 threads each from a host's dump:", "snp-cpuid from-dump server.dump --guest 4x2 -o guest.pages"),
    ("Do what the notes after a refusal name:", "snp-cpuid set own.pages 80000008.EBX=3112D21F -o mended.pages"),
    ("Ask whether a server has a feature:", "snp-cpuid lookup server.dump FMA"),
    (
        "See what two servers differ in, and whether a guest may go from one to the other:",
        "snp-cpuid diff a.dump b.dump; snp-cpuid compare a.dump b.dump",
    ),
    ("Sort the files of a folder into servers that are alike, for a browser:", "snp-cpuid fleet folder --html fleet.html"),
];

fn examples() -> String {
    let example = |(what, lines): &(&str, &str)| {
        let lines: String = lines.split("; ").map(|line| format!("$ {}\n", line_of_text(line))).collect();
        format!(".Pp\n{}.Bd -literal -offset indent\n{lines}.Ed\n", filled(what))
    };
    let text: String = EXAMPLES.iter().map(example).collect();
    format!(".Sh EXAMPLES\n{}", text.strip_prefix(".Pp\n").unwrap_or(&text))
}

/// Other pages as text, since mandoc complains of references to what is not installed.
const SEE_ALSO: &str = "\
.Sh SEE ALSO
cpuid(1), dmesg(1), cpuid(4)
.Pp
AMD64 Architecture Programmer's Manual, volume 3, appendix E.
.Pp
SEV Secure Nested Paging Firmware ABI Specification, the page of type CPUID.
";

fn head() -> String {
    format!(
        "\
.Dd {}
.Dt SNP-CPUID 1
.Os
.Sh NAME
.Nm snp-cpuid
.Nd the CPUID table of an AMD SEV-SNP guest
.Sh SYNOPSIS
.Nm
.Ar command
.Op Ar arguments
",
        day(CHANGELOG)
    )
}

/// The day of the newest version, from the first heading `## VERSION (YEAR-MONTH-DAY)`.
fn day(changelog: &str) -> String {
    let heading = changelog.lines().find(|line| line.starts_with("## ")).unwrap_or_default();
    let numbers: Vec<usize> = heading.split(['(', ')', '-']).filter_map(|part| part.parse().ok()).collect();
    match numbers[..] {
        [year, month @ 1..=12, day] => format!("{} {day}, {year}", MONTHS[month - 1]),
        // a test holds the heading to this form
        _ => heading.into(),
    }
}

/// The section of a command, from its help.
fn section(command: &Command) -> String {
    let help = help::of_command(command);
    let usage: String = paragraphs(&help).take(1).map(synopsis).collect();
    format!(".Ss {}\n{usage}.Pp\n", command.name) + &body(&paragraphs(&help).skip(1).collect::<Vec<_>>())
}

/// The paragraphs of a text, which empty lines part.
fn paragraphs(text: &str) -> impl Iterator<Item = &str> {
    text.split("\n\n").map(|paragraph| paragraph.trim_end_matches('\n')).filter(|paragraph| !paragraph.is_empty())
}

/// Paragraphs of prose, lists of options, and lines that stay as they are, which a leading space tells.
fn body(paragraphs: &[&str]) -> String {
    let one = |paragraph: &&str| match *paragraph {
        options if options.starts_with("  -") => list(options),
        lines if lines.lines().any(|line| line.starts_with(' ')) => literal(lines),
        prose => ".Pp\n".to_string() + &filled(prose),
    };
    // a paragraph break right after a heading is one too many
    let text: String = paragraphs.iter().map(one).collect();
    text.strip_prefix(".Pp\n").unwrap_or(&text).to_string()
}

/// `Usage: snp-cpuid image PAGES -o FILE [--line]` as macros, one line for each word or bracket.
fn synopsis(usage: &str) -> String {
    let mut words = usage.split_whitespace().skip(2);
    let mut text = format!(".Nm Cm {}", words.next().map(escaped).unwrap_or_default());
    let mut inside = false;
    for word in words {
        let opened = word.strip_prefix('[');
        inside |= opened.is_some();
        let bare = opened.unwrap_or(word);
        let closed = bare.strip_suffix(']').filter(|_| inside);
        let mark = marked(closed.unwrap_or(bare));
        text += &match (opened, inside) {
            (Some(_), _) => format!("\n.Op {mark}"),
            (None, true) => format!(" {mark}"),
            (None, false) => format!("\n.{mark}"),
        };
        inside &= closed.is_none();
    }
    text + "\n"
}

/// A word of a synopsis or of an option's label by its macro: `Fl` for an option, `Ar` for what a user puts in its place.
fn marked(word: &str) -> String {
    match word.strip_prefix('-') {
        Some(name) => format!("Fl {}", escaped(name)),
        None => format!("Ar {}", escaped(word)),
    }
}

/// Lines `  -o, --output FILE   what it does`, with what they go on in below.
fn list(lines: &str) -> String {
    let mut text = ".Bl -tag -width Ds\n".to_string();
    let mut items: Vec<(&str, String)> = vec![];
    for line in lines.lines() {
        match line.strip_prefix("  ").filter(|line| !line.starts_with(' ')) {
            Some(line) => {
                let (label, words) = line.split_once("  ").unwrap_or((line, ""));
                items.push((label, words.trim().to_string()));
            }
            None => items.last_mut().expect("an option before").1 += &format!(" {}", line.trim()),
        }
    }
    for (label, words) in items {
        let label: Vec<String> =
            label.split(' ').map(|word| word.strip_suffix(',').map_or_else(|| marked(word), |name| marked(name) + " ,")).collect();
        text += &format!(".It {}\n{}", label.join(" "), filled(&words));
    }
    text + ".El\n"
}

/// Lines that stay as they are. One that is too long goes on in the next line of the source.
fn literal(lines: &str) -> String {
    let mut text = ".Bd -literal -offset indent\n".to_string();
    for line in lines.lines() {
        let mut rest = line;
        while rest.len() > COLUMNS {
            text += &format!("{}\\c\n", line_of_text(&rest[..COLUMNS]));
            rest = &rest[COLUMNS..];
        }
        text += &format!("{}\n", line_of_text(rest));
    }
    text + ".Ed\n"
}

/// Prose in lines of the source, a new one for each sentence, as mdoc wants it.
fn filled(prose: &str) -> String {
    let mut lines = vec![String::new()];
    for word in prose.split_whitespace().map(escaped) {
        let line = lines.last_mut().expect("there is a line");
        let ended = line.trim_end_matches([')', '\'', '"']).ends_with(['.', '?', '!', ':']);
        if line.is_empty() {
            *line = word;
        } else if ended || line.len() + 1 + word.len() > COLUMNS {
            lines.push(word);
        } else {
            *line += &format!(" {word}");
        }
    }
    lines.iter().map(|line| guarded(line) + "\n").collect()
}

fn line_of_text(line: &str) -> String {
    guarded(&escaped(line))
}

/// A line of text that begins like a macro is told apart from one.
fn guarded(line: &str) -> String {
    if line.starts_with(['.', '\'']) { format!("\\&{line}") } else { line.to_string() }
}

/// Backslashes as they are, and a hyphen that a reader can copy into a shell.
fn escaped(text: &str) -> String {
    text.replace('\\', "\\e").replace('-', "\\-")
}
