//! Help, bad usage, files that cannot be read or written, closed pipes.

use crate::run::{BUILDING, EPYC, Folder, READING, command, finish, run, run_on, with_files};
use std::fs;
use std::process::{Command, Stdio};

/// The commands by their lines in the main help.
fn commands() -> Vec<String> {
    let help = run(&["--help"]);
    let (_, list) = help.text().split_once("\nCommands:\n").expect("the list");
    let names = list.lines().take_while(|line| !line.is_empty()).filter_map(|line| line.strip_prefix("  ")?.split(' ').next());
    names.filter(|name| !name.is_empty() && *name != "help").map(String::from).collect()
}

#[test]
fn help_of_all() {
    for arguments in [&["--help"][..], &["-h"], &["help"]] {
        let ran = run(arguments);
        assert_eq!((ran.status, ran.err.as_str()), (0, ""));
        assert!(ran.text().starts_with("Usage: snp-cpuid COMMAND"));
        assert!(ran.text().lines().all(|line| line.len() <= 100 && line.is_ascii()));
        assert_eq!(ran, run(&["--help"]));
    }
    let told = commands();
    assert!(BUILDING.iter().chain(READING).all(|run| told.iter().any(|name| name == run[0])), "{told:?}");
    assert!(run(&["--version"]).text().starts_with("snp-cpuid "));
}

#[test]
fn help_of_each() {
    for name in commands() {
        let name = name.as_str();
        let ran = run(&[name, "--help"]);
        assert_eq!((ran.status, ran.err.as_str()), (0, ""));
        assert!(ran.text().starts_with(&format!("Usage: snp-cpuid {name} ")));
        assert!(ran.text().contains("Exit status: 0"), "{name}");
        assert!(ran.text().lines().all(|line| line.len() <= 100 && line.is_ascii()), "{name}");
        // wherever it stands, and under its other names
        assert_eq!(run(&["help", name]), ran);
        assert_eq!(run(&[name, EPYC, "-h"]), ran);
        // every option of the usage is explained
        let (usage, _) = ran.text().split_once("\n\n").unwrap();
        for option in usage.split(['[', ']', ' ', '\n']).filter(|word| word.starts_with('-')) {
            assert!(ran.text().lines().any(|line| line.trim_start().starts_with(option)), "{name} {option}");
        }
    }
}

const SHARED: [&str; 3] = [
    "--secure-avic keep the secure-AVIC bit of 8000001Fh.EAX",
    "--edition N edition of the AVX rule, usually 1; 2 hides F16C, XOP, FMA4 without YMM state",
    "--line where the pages are refused, print the refusal's line too",
];

/// The options of all commands that build are told by each of them in the same words, and by no other; `carry` names its editions otherwise, and
/// `fleet`, `to-dump`, `set` and `diff` go on where pages are refused.
#[test]
fn shared_options_are_told_alike() {
    for name in commands() {
        let builds = ["check", "compare", "nearest", "entries", "fleet", "to-dump", "set", "diff"].contains(&name.as_str())
            || BUILDING.iter().any(|run| run[0] == name);
        let ran = run(&[name.as_str(), "--help"]);
        for told in SHARED {
            let (option, _) = told.split_once(' ').unwrap();
            let without = [("--edition", &["carry"][..]), ("--line", &["check", "fleet", "to-dump", "set", "diff"])];
            let builds = builds && !without.iter().any(|(left_out, names)| *left_out == option && names.contains(&name.as_str()));
            let line = ran.text().lines().find(|line| line.trim_start().starts_with(&format!("{option} ")));
            let words = line.map(|line| line.split_whitespace().collect::<Vec<_>>().join(" "));
            assert_eq!(words.as_deref(), builds.then_some(told), "{name}");
        }
    }
}

#[test]
fn bad_usage_is_status_2_and_one_line() {
    let cases: [(&[&str], &str); 20] = [
        (&[], "no command"),
        (&["tables"], "no command 'tables'"),
        (&["help", "nothing"], "no command 'nothing'"),
        (&["table"], "PAGES is missing"),
        (&["table", EPYC, EPYC], "one operand too many"),
        (&["table", EPYC, "--enforce"], "no option '--enforce'"),
        (&["table", EPYC, "-o", "x"], "no option '-o'"),
        (&["image", EPYC], "-o FILE is missing"),
        (&["image", EPYC, "-o"], "-o needs a file name"),
        (&["image", EPYC, "-o", "a", "-o", "b"], "-o is given twice"),
        (&["lookup", EPYC], "LEAF[.SUB] is missing"),
        (&["lookup", EPYC, "80000008hh"], "'80000008hh' is no LEAF[.SUB]"),
        (&["from-dump", EPYC], "-o FILE is missing"),
        (&["from-dump", EPYC, "-o", "x", "--secure-avic"], "no option '--secure-avic'"),
        (&["compare", EPYC], "B is missing"),
        (&["nearest"], "PAGES is missing"),
        (&["explain"], "LINE is missing"),
        (&["explain", "3 0000000D", "12"], "one operand too many"),
        (&["compare", "-", "-"], "compare: standard input can be one file only"),
        (&["fleet", "-", "--since", "-"], "fleet: standard input can be one file only"),
    ];
    for (arguments, words) in cases {
        let ran = run(arguments);
        assert_eq!(ran.status, 2, "{arguments:?}");
        assert!(ran.line().contains(words), "{arguments:?}: {}", ran.line());
        assert!(ran.line().contains("--help')"), "says where help is: {}", ran.line());
    }
}

/// A command or option with a letter wrong, missing, too many or swapped, or cut off, is named; one that is near none is not.
#[test]
fn a_mistyped_word_gets_a_suggestion() {
    for (given, meant) in [
        (&["tabel", EPYC][..], "table"),
        (&["tables", EPYC], "table"),
        (&["lokup", EPYC, "1"], "lookup"),
        (&["help", "compar"], "compare"),
        (&["fromdump", "-", "-o", "x"], "from-dump"),
        (&["to_kvm", EPYC], "to-kvm"),
        (&["topo"], "topologies"),
        (&["table", EPYC, "--edtion", "1"], "--edition"),
        (&["table", EPYC, "--edtion=1"], "--edition"),
        (&["guest", EPYC, "--xcr", "1"], "--xcr0"),
        (&["table", EPYC, "--jsno"], "--json"),
    ] {
        let ran = run(given);
        assert_eq!(ran.status, 2);
        assert!(ran.line().contains(&format!("', did you mean '{meant}'? (see 'snp-cpuid ")), "{}", ran.line());
    }
    for given in [&["frobnicate"][..], &["x"], &[""], &["table", EPYC, "--frobnicate"], &["table", EPYC, "-x"]] {
        let ran = run(given);
        assert!(ran.status == 2 && !ran.line().contains("did you mean"), "{}", ran.line());
    }
}

/// COLUMNS is heard by words and help; names and rows are not cut.
#[test]
fn lines_are_as_wide_as_columns_says() {
    for (columns, most) in [("60", 60), ("80", 80), ("72", 72), ("250", 250), ("1", 40), ("0", 100), ("", 100), ("wide", 100), ("-5", 100)] {
        for arguments in [&["--help"][..], &["help", "compare"], &["help", "lookup"], &["explain", "3"]] {
            let ran = finish(command().args(arguments).env("COLUMNS", columns));
            let widest = ran.text().lines().filter(|line| line.contains(' ')).map(str::len).max().unwrap();
            // the labels of the help alone take 30 columns and more
            assert!(widest <= most.max(62), "{columns}: {widest} columns of {arguments:?}");
            assert!(widest + 12 > most || arguments[0] == "explain" || most > 100, "{columns}: {widest} of {arguments:?}");
        }
        let table = finish(command().args(["table", EPYC]).env("COLUMNS", columns));
        let words = |ran: &crate::run::Ran| ran.text().split_whitespace().map(String::from).collect::<Vec<_>>();
        assert_eq!(words(&table), words(&run(&["table", EPYC])), "the same words");
        // a fingerprint is one word
        assert!(table.text().lines().all(|line| line.len() <= most.max(60) || line.starts_with("fingerprint ")), "{columns}");
    }
}

/// A terminal by util-linux's `script`: bytes do not go there, text does.
#[test]
fn bytes_do_not_go_to_a_terminal() {
    let binary = env!("CARGO_BIN_EXE_snp-cpuid");
    let folder = Folder::new("terminal");
    let on_terminal = |words: &str| {
        let script = Command::new("script").args(["-q", "-e", "-c", &format!("{binary} {words}"), "/dev/null"]).stdin(Stdio::null()).output();
        let output = script.expect("script runs (util-linux)");
        (output.status.code().unwrap(), String::from_utf8_lossy(&output.stdout).replace('\r', ""))
    };
    for words in [
        "image ../tests/data/epyc-milan.pages -o -",
        "to-kvm ../tests/data/epyc-milan.pages -o -",
        "topologies -o -",
        "pool ../tests/data/epyc-milan.pages ../tests/data/epyc-milan.pages -o -",
    ] {
        let (status, text) = on_terminal(words);
        assert_eq!(status, 2, "{text}");
        assert!(text.starts_with("snp-cpuid: standard output is a terminal, and these are bytes, not text: "), "{text}");
    }
    let (status, text) = on_terminal("to-dump ../tests/data/epyc-milan.pages -o -");
    assert_eq!((status, text.as_bytes()), (0, &run(&["to-dump", EPYC]).out[..]));
    assert_eq!(
        on_terminal(&format!("image ../tests/data/epyc-milan.pages -o {}", folder.path("image"))),
        (0, run(&["image", EPYC, "-o", &folder.path("again")]).err)
    );
}

#[test]
fn numbers_that_are_none() {
    for wrong in ["", ".", "1.", ".1", "0x", "g", "-1", "+1", "1.2.3", "h", "1.h", "0x1h", "100000000", "1.-1", "0x1.+2", "D,1"] {
        let ran = run(&["lookup", EPYC, "--", wrong]);
        assert_eq!(ran.status, 2, "{wrong}");
        assert!(ran.line().contains("LEAF[.SUB]"));
    }
}

#[test]
fn files_that_cannot_be_read() {
    let folder = Folder::new("unreadable");
    let missing = folder.path("missing");
    for (file, why) in [(missing.as_str(), "no such file or directory"), ("..", "is a directory"), ("/dev/zero", "longer than 64 MiB")] {
        for run_of in BUILDING.iter().chain(READING) {
            let arguments = with_files(run_of, file, &folder.path("out"));
            let ran = run(&arguments);
            assert_eq!((ran.status, ran.line()), (2, format!("{file}: {why}").as_str()), "{arguments:?}");
        }
    }
    assert_eq!(folder.names(), [""; 0]);
}

#[test]
fn a_name_with_a_line_break_stays_one_line() {
    assert_eq!(run(&["table", "no\nsuch\x1b"]).line(), "no\\nsuch\\u{1b}: no such file or directory");
}

#[test]
fn standard_input_and_output_are_a_dash() {
    let pages = fs::read(EPYC).unwrap();
    assert_eq!(run_on(&pages, &["table", "-"]), run(&["table", EPYC]));
    assert_eq!(run_on(&pages, &["image", "-", "-o", "-"]).out, fs::read("../crates/snp_cpuid_image/stdout").unwrap());
    assert_eq!((run_on(&[], &["table", "-"]).status, run_on(&[], &["table", "-"]).line()), (2, "standard input: it is empty"));
}

#[test]
fn output_that_cannot_be_written() {
    let folder = Folder::new("unwritable");
    let dump = folder.file("dump", run(&["to-dump", EPYC]).out);
    let file = folder.file("file", "kept");
    for out in [folder.path("no/such"), folder.path(""), format!("{file}/below"), "/dev/full".into()] {
        for arguments in [["image", EPYC, "-o", &out], ["to-dump", EPYC, "-o", &out], ["from-dump", &dump, "-o", &out]] {
            let ran = run(&arguments);
            assert_eq!(ran.status, 2, "{arguments:?}");
            assert!(ran.line().starts_with(&format!("{out}: cannot be written: ")), "{}", ran.line());
        }
    }
    assert_eq!(folder.names(), ["dump", "file"]);
    assert_eq!(fs::read(file).unwrap(), b"kept");
}

/// A disk that fills while the file is written, as a limit on the size of files gives it.
#[test]
fn a_write_that_breaks_off_leaves_the_old_file_and_nothing_beside_it() {
    let folder = Folder::new("broken_off");
    let old = folder.file("old", "as it was");
    for out in [&old, &folder.path("new")] {
        let limited = "trap '' XFSZ; ulimit -f 0; exec \"$0\" \"$@\"";
        let ran = finish(Command::new("sh").args(["-c", limited, env!("CARGO_BIN_EXE_snp-cpuid"), "image", EPYC, "-o", out]));
        assert_eq!((ran.status, ran.line()), (2, format!("{out}: cannot be written: File too large").as_str()));
    }
    assert_eq!(fs::read(old).unwrap(), b"as it was");
    assert_eq!(folder.names(), ["old"]);
}

#[test]
fn a_full_standard_output_is_status_2() {
    for arguments in [&["table", EPYC][..], &["lookup", EPYC, "1"], &["to-dump", EPYC], &["image", EPYC, "-o", "-"], &["--help"]] {
        let full = fs::File::options().write(true).open("/dev/full").unwrap();
        let ran = finish(command().args(arguments).stdout(full));
        assert_eq!((ran.status, ran.line()), (2, "standard output: No space left on device"));
    }
}

#[test]
fn a_closed_pipe_is_no_failure() {
    for arguments in [&["table", EPYC][..], &["to-dump", EPYC], &["compare", EPYC, EPYC], &["--help"]] {
        // the writing end of a pipe whose reader has ended
        let mut reader = Command::new("true").stdin(Stdio::piped()).spawn().unwrap();
        let pipe = reader.stdin.take().unwrap();
        reader.wait().unwrap();
        let ran = finish(command().args(arguments).stdout(pipe));
        assert_eq!((ran.status, ran.err.as_str()), (0, ""));
    }
}

#[test]
fn an_existing_file_is_replaced_where_it_stands() {
    use std::os::unix::fs::{PermissionsExt, symlink};
    let folder = Folder::new("replaced");
    let file = folder.file("file", "old");
    fs::set_permissions(&file, fs::Permissions::from_mode(0o640)).unwrap();
    symlink("file", folder.path("link")).unwrap();
    for out in [folder.path("link"), file.clone()] {
        fs::write(&file, "old").unwrap();
        assert_eq!(run(&["image", EPYC, &format!("--output={out}")]).status, 0);
        assert_eq!(fs::read(&file).unwrap(), fs::read("../crates/snp_cpuid_image/stdout").unwrap());
        assert_eq!(fs::metadata(&file).unwrap().permissions().mode() & 0o777, 0o640);
        assert!(fs::symlink_metadata(folder.path("link")).unwrap().is_symlink());
        assert_eq!(folder.names(), ["file", "link"]);
    }
}

/// What an input holds is not gone: an output that is one, under any name, is refused before anything is read.
#[test]
fn an_output_is_no_input() {
    use std::os::unix::fs::symlink;
    let folder = Folder::new("onto_input");
    let (pages, other) = (folder.file("pages", fs::read(EPYC).unwrap()), folder.file("other", fs::read(EPYC).unwrap()));
    symlink("pages", folder.path("link")).unwrap();
    fs::hard_link(&pages, folder.path("hard")).unwrap();
    for out in [pages.clone(), folder.path("link"), folder.path("hard"), folder.path("./pages")] {
        for arguments in [
            &["image", &pages, "-o", &out][..],
            &["set", &pages, "5.EAX=1", "-o", &out],
            &["pool", &other, &pages, "-o", &out],
            &["fleet", &other, &pages, "--html", &out],
            &["fleet", &other, "--since", &pages, "--html", &out],
        ] {
            let ran = run(arguments);
            assert_eq!((ran.status, ran.line()), (2, format!("{out}: not written: it is the input {pages}").as_str()));
        }
    }
    // also where its folder was given
    let ran = run(&["fleet", &folder.path(""), "--html", &other]);
    assert_eq!((ran.status, ran.line()), (2, format!("{other}: not written: it is the input {other}").as_str()));
    assert_eq!(fs::read(&pages).unwrap(), fs::read(EPYC).unwrap());
    assert_eq!(folder.names(), ["hard", "link", "other", "pages"]);
}

/// A link to nothing, or to itself, stays a link.
#[test]
fn a_link_to_nothing_is_not_written() {
    let folder = Folder::new("link_to_nothing");
    for to in ["nowhere", "link"] {
        let link = folder.path("link");
        std::os::unix::fs::symlink(to, &link).unwrap();
        let ran = run(&["image", EPYC, "-o", &link]);
        assert!(ran.status == 2 && ran.line().starts_with(&format!("{link}: cannot be written: ")), "{}", ran.err);
        assert!(fs::symlink_metadata(&link).unwrap().is_symlink());
        fs::remove_file(link).unwrap();
    }
    assert_eq!(folder.names(), [""; 0]);
}

/// Where standard output is full no file is written, neither a new one nor an old one, and nothing is left beside it.
#[test]
fn no_file_where_standard_output_is_full() {
    let folder = Folder::new("full_output");
    let old = folder.file("old", "as it was");
    for out in [&old, &folder.path("new")] {
        for arguments in [
            &["carry", EPYC, "--from", "1", "--to", "2", "--xcr0", "7", "--xss", "0", "--json", "-o", out][..],
            &["pool", EPYC, EPYC, "--json", "-o", out],
            &["topologies", "--json", "-o", out],
            &["fleet", EPYC, "--html", out],
            &["fleet", EPYC, "--json", "--html", out],
        ] {
            let full = fs::File::options().write(true).open("/dev/full").unwrap();
            let ran = finish(command().args(arguments).stdout(full));
            assert_eq!((ran.status, ran.line()), (2, "standard output: No space left on device"), "{arguments:?}");
            assert_eq!(folder.names(), ["old"]);
            // and the other way round the file is, and the text too
            assert_eq!(run(arguments).status, 0);
            assert_ne!(fs::read(out).unwrap(), b"as it was");
            fs::write(&old, "as it was").unwrap();
            let _ = fs::remove_file(folder.path("new"));
        }
    }
    assert_eq!(fs::read(old).unwrap(), b"as it was");
}

/// The width of a terminal, by util-linux's `script` and `stty`: text and notes fill it, and COLUMNS goes before it for text.
#[test]
fn lines_fill_the_terminal() {
    let folder = Folder::new("terminal_width");
    let refused = folder.file("refused", crate::page_sets::set(&crate::page_sets::without(0xD, 2)));
    let binary = env!("CARGO_BIN_EXE_snp-cpuid");
    let widest = |columns: u32, environment: &str, words: &str| {
        let inside = format!("stty cols {columns}; {environment} {binary} {words}");
        let output = Command::new("script").args(["-q", "-c", &inside, "/dev/null"]).stdin(Stdio::null()).env_remove("COLUMNS").output();
        let text = String::from_utf8_lossy(&output.expect("script runs (util-linux)").stdout).replace('\r', "");
        let spaced = |line: &&str| line.trim_start().trim_start_matches("snp-cpuid: ").contains(' ');
        text.lines().filter(spaced).map(str::len).max().unwrap_or(0)
    };
    for columns in [60, 80, 140] {
        for words in ["explain 3", &format!("table {refused}")] {
            let widest = widest(columns, "", words) as u32;
            assert!(widest <= columns && widest + 20 > columns, "{words}: {widest} of {columns}");
        }
    }
    assert!((60..=70).contains(&widest(140, "COLUMNS=70", "explain 3")));
}
