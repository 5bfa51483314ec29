//! An image in the place of pages: what one command writes goes into the next.

use crate::json_text::jq;
use crate::page_sets::{EPYC_ROWS, epyc, rich, set, stated, with, without};
use crate::run::{EPYC, Folder, run, run_on};
use std::fs;

/// The image of a page set, in a file.
fn image(folder: &Folder, name: &str, pages: &str, words: &[&str]) -> String {
    let out = folder.path(name);
    let ran = run(&[&["image", pages, "-o", &out], words].concat());
    assert_eq!(ran.status, 0, "{}", ran.err);
    out
}

#[test]
fn the_commands_that_need_no_more_than_a_table() {
    let folder = Folder::new("images");
    let image = image(&folder, "image", EPYC, &[]);
    for words in [&["table"][..], &["to-dump"], &["lookup"]] {
        let leaf: &[&str] = if words[0] == "lookup" { &["8000001D"] } else { &[] };
        assert_eq!(run(&[words, &[image.as_str()], leaf].concat()), run(&[words, &[EPYC], leaf].concat()));
    }
    assert_eq!(run(&["image", &image, "-o", "-"]).out, fs::read(&image).unwrap());
    assert_eq!(run_on(&fs::read(&image).unwrap(), &["table", "-"]), run(&["table", EPYC]));
    assert_eq!(run(&["lookup", &image, "D.9"]).status, 3);
}

/// No row of an image is said to be an entry's or made here.
#[test]
fn nobody_knows_where_its_rows_came_from() {
    let folder = Folder::new("image_origins");
    let image = image(&folder, "image", EPYC, &[]);
    let ran = run(&["table", &image, "--origins"]);
    let rows: Vec<&str> = ran.text().lines().skip(1).take_while(|line| !line.is_empty()).filter(|line| !line.starts_with(' ')).collect();
    assert!(rows.len() == EPYC_ROWS && rows.iter().all(|row| row.ends_with("  unknown")), "{rows:?}");
    let filter = "[.edition, ([.rows[] | [.origin, .page, .entry]] | unique)]";
    if let Some(read) = jq(&run(&["table", &image, "--json"]).out, filter) {
        assert_eq!(read, "[null,[[\"unknown\",null,null]]]");
        assert_eq!(jq(&run(&["lookup", &image, "1", "--json"]).out, "[.edition, .rows[0].origin]").unwrap(), "[null,\"unknown\"]");
    }
}

/// A pool's image goes into `table` and `carry`; a carried image into `to-dump`.
#[test]
fn what_one_command_writes_the_next_reads() {
    let folder = Folder::new("image_chain");
    let (pages, less) = (folder.file("pages", stated(3)), folder.file("less", set(&with(1, 0, 2, |ecx| ecx & !(1 << 12)))));
    let pooled = folder.path("pooled");
    let pool = run(&["pool", EPYC, &less, "-o", &pooled]);
    assert_eq!((pool.status, run(&["table", &pooled])), (0, run(&["table", &less])));
    let (carried, again) = (folder.path("carried"), folder.path("again"));
    let states = ["--from", "1", "--to", "2", "--xcr0", "3", "--xss", "0", "-o"];
    assert_eq!(run(&[&["carry", pages.as_str()][..], &states, &[carried.as_str()]].concat()).status, 0);
    let first = image(&folder, "first", &pages, &[]);
    let ran = run(&[&["carry", first.as_str()][..], &states, &[again.as_str()]].concat());
    assert_eq!((ran.status, ran.err.as_str()), (0, "snp-cpuid: note: from edition 1 to 2: F16C, XOP, FMA4 went\n"));
    assert_eq!(fs::read(&again).unwrap(), fs::read(&carried).unwrap());
    assert_eq!(run(&["to-dump", &again]), run(&["to-dump", &pages, "--edition", "2"]));
}

/// The guest's view and the list for KVM of an image are those of its pages, under whichever choices these were built; origins are unknown.
#[test]
fn what_the_library_answers_of_pages_with_its_rows() {
    let folder = Folder::new("image_rows");
    let processor = ["--apic", "5", "--xcr0", "3", "--xss", "800", "--osxsave"];
    let (every_bit, no_state) = (folder.file("every_bit", set(&rich())), folder.file("no_state", stated(3)));
    for pages in [EPYC, &every_bit, &no_state] {
        for words in [&[][..], &["--edition", "2"], &["--secure-avic"], &["--edition", "2", "--secure-avic"]] {
            let image = image(&folder, "image", pages, words);
            assert_eq!(run(&[&["guest", &image], &processor[..]].concat()), run(&[&["guest", pages], &processor[..], words].concat()));
            let one = |file: &str, words: &[&str]| run(&[&["lookup", file, "B.1"], &processor[..], words].concat());
            assert_eq!(one(&image, &[]), one(pages, words));
            let list = |file: &str, words: &[&str]| run(&[&["to-kvm", file, "-o", "-"], words].concat());
            assert_eq!(list(&image, &[]), list(pages, words));
            let compared = run(&[&["compare", &image, pages], words].concat());
            assert_eq!(compared.status, 0, "{}", compared.text());
            assert!(compared.text().starts_with("same: A and B give a guest the same table, row for row.\n"));
            assert!(compared.text().ends_with("\n\nOf an image nobody knows the entries.\n"));
        }
    }
    let image = image(&folder, "image", EPYC, &[]);
    let seen = run(&[&["guest", &image, "--origins"], &processor[..]].concat());
    assert_eq!(seen.text().lines().filter(|line| line.ends_with("  unknown")).count(), EPYC_ROWS);
    // 13 as before
    assert!(run(&["guest", &image, "--apic", "0", "--xcr0", "e7", "--xss", "0"]).line().starts_with(&format!("{image}: refusal 13: ")));
}

/// Two tables of which one lacks a bit, as images, in all four ways.
#[test]
fn images_compared() {
    let folder = Folder::new("image_compared");
    let less = folder.file("less", set(&with(1, 0, 2, |ecx| ecx & !(1 << 12))));
    let images = [image(&folder, "full.image", EPYC, &[]), image(&folder, "less.image", &less, &[])];
    let no = "no: a guest of A may not move to B. B lacks FMA, leaf 00000001 ECX bit 12.\n\n";
    for (a, b, answer) in [(&images[0], &images[1], false), (&images[1], &images[0], true), (&images[0], &less, false), (&less, &images[0], true)] {
        let ran = run(&["compare", a, b]);
        assert_eq!(
            (ran.status, ran.text().starts_with(no), ran.text().starts_with("yes: ")),
            (i32::from(!answer), !answer, answer),
            "{}",
            ran.text()
        );
    }
    let ran = run(&["compare", &images[0], &images[1]]);
    assert!(ran.text().contains("\n00000001    A unknown, B unknown\n") && !ran.text().contains("edition"), "{}", ran.text());
    if let Some(read) = jq(&run(&["compare", &images[0], &images[1], "--json"]).out, "[.answer, .edition, .a.image, .a_to_b, .b_to_a]") {
        assert_eq!(read, "[\"no\",null,true,null,null]");
    }
}

/// A pool of images is the pool of their servers, and a pool of pools that of all servers.
#[test]
fn images_pooled() {
    let folder = Folder::new("image_pooled");
    let servers = [epyc(), with(1, 0, 2, |ecx| ecx & !(1 << 12)), with(7, 0, 1, |ebx| ebx & !(1 << 18)), with(0xD, 0, 0, |_| 3)];
    let pages: Vec<String> = servers.iter().enumerate().map(|(place, entries)| folder.file(&format!("{place}.pages"), set(entries))).collect();
    let images: Vec<String> = pages.iter().enumerate().map(|(place, pages)| image(&folder, &format!("{place}.image"), pages, &[])).collect();
    let pooled = |files: &[&String], name: &str| {
        let out = folder.path(name);
        let ran = run(&[&["pool"], &files.iter().map(|file| file.as_str()).collect::<Vec<_>>()[..], &["-o", &out]].concat());
        assert_eq!(ran.status, 0, "{}", ran.err);
        (out.clone(), fs::read(&out).unwrap(), ran.err)
    };
    let all = pooled(&pages.iter().collect::<Vec<_>>(), "all.image");
    let of_images = pooled(&images.iter().collect::<Vec<_>>(), "of-images.image");
    assert_eq!((&of_images.1, of_images.2.replace(".image", ".pages")), (&all.1, all.2));
    let mixed = pooled(&[&pages[0], &images[1], &pages[2], &images[3]], "mixed.image");
    assert_eq!(mixed.1, all.1);
    let (left, right) = (pooled(&[&pages[0], &pages[1]], "left.image").0, pooled(&[&pages[2], &pages[3]], "right.image").0);
    assert_eq!(pooled(&[&left, &right], "pools.image").1, all.1);
    let origins = run(&["pool", &left, &pages[3], "--origins"]);
    assert_eq!(origins.text().lines().filter(|line| line.ends_with("  unknown")).count(), EPYC_ROWS - 1);
    // refusals as of pages: 18, a server's own, 19
    let other = folder.file("other", set(&with(5, 0, 0, |eax| eax + 1)));
    let refused = folder.file("refused", set(&without(5, 0)));
    for (files, line) in [
        (&["pool", &left][..], "the pool: refusal 18: "),
        (&["pool", &left, &refused, &other], &format!("{refused}: refusal 3: ")),
        (&["pool", &left, &other], "the pool: refusal 19: "),
    ] {
        let ran = run(files);
        assert!(ran.status == 1 && ran.line().starts_with(line), "{}", ran.err);
    }
    assert_eq!(run(&["pool", &left, &other]).notes()[0], format!("{other} differs from {left} in 00000005.EAX (00000041, 00000040)"));
    assert_eq!(run(&["pool", &left, &right, "--edition", "2"]).status, 2);
    assert_eq!(run(&["compare", &left, &right, "--edition", "2"]).status, 2);
}

/// An image of rows that no pages give: what needs a table is answered, and only a pool, which needs pages, is not.
#[test]
fn tables_that_building_does_not_give() {
    let folder = Folder::new("image_other");
    let first = fs::read(image(&folder, "image", EPYC, &[])).unwrap();
    // without its last row, and with 1.EAX bit 31, which is masked
    let short = folder.file("short", &first[..first.len() - 21]);
    let mut changed = first.clone();
    changed[21 + 5 + 3] |= 0x80;
    let changed = folder.file("changed", &changed);
    let processor = ["--apic", "1", "--xcr0", "1", "--xss", "0"];
    for (file, rows) in [(&short, EPYC_ROWS - 1), (&changed, EPYC_ROWS)] {
        assert_eq!(run(&["table", file]).status, 0);
        let seen = run(&[&["guest", file, "--origins"], &processor[..]].concat());
        assert_eq!((seen.status, seen.text().lines().filter(|line| line.ends_with("  unknown")).count()), (0, rows), "{}", seen.err);
        assert_eq!(run(&["to-kvm", file, "-o", "-"]).out.len(), 8 + 40 * rows);
    }
    for (arguments, why) in [
        (["compare", &changed, EPYC], "Leaf 00000001 EAX must be equal: A has 80A00F11, B 00A00F11."),
        (["compare", EPYC, &changed], "Leaf 00000001 EAX must be equal: A has 00A00F11, B 80A00F11."),
        (["compare", EPYC, &short], "B has no row for leaf 8000001F."),
        (["compare", &short, EPYC], "B has a row for leaf 8000001F, which A has not."),
    ] {
        let ran = run(&arguments);
        let first = ran.text().split("\n\n").next().unwrap().replace('\n', " ").split_whitespace().collect::<Vec<_>>().join(" ");
        assert_eq!((ran.status, first), (1, format!("no: a guest of A may not move to B. {why}")));
    }
    let why = format!("{changed}: no pages give the table of this image");
    if let Some(read) = jq(&run(&["pool", &changed, EPYC, "--json"]).out, "[.answer, .file, .words]") {
        assert_eq!(read, format!("[\"no\",\"{changed}\",\"no pages give the table of this image\"]"));
    }
    for arguments in [["pool", EPYC, &changed], ["pool", &changed, EPYC]] {
        let ran = run(&arguments);
        assert_eq!((ran.status, ran.line()), (1, why.as_str()));
    }
    let ran = run(&["pool", EPYC, &short]);
    assert!(ran.status == 1 && ran.line().starts_with(&format!("{short}: refusal 3: ")), "{}", ran.err);
    assert_eq!(ran.notes()[0], "no entry for 8000001F");
}

#[test]
fn options_of_pages_are_not_for_an_image() {
    let folder = Folder::new("image_options");
    let image = image(&folder, "image", EPYC, &[]);
    for words in [&["--edition", "2"][..], &["--edition", "1"], &["--secure-avic"], &["--secure-avic", "--apic", "1", "--xcr0", "1", "--xss", "0"]] {
        let command = if words.len() > 2 { "guest" } else { "table" };
        let ran = run(&[&[command, image.as_str()], words].concat());
        let why = format!("{image} is an image, whose table is made: --edition and --secure-avic are for pages");
        assert_eq!((ran.status, ran.line()), (2, why.as_str()));
    }
}

/// The others need pages, and take those that have the image's rows; what is neither pages nor image is said to be neither.
#[test]
fn commands_that_need_pages_make_them() {
    let folder = Folder::new("image_pages");
    let image = image(&folder, "image", EPYC, &[]);
    let note = format!("snp-cpuid: note: {image}: an image, told by pages that have its rows\n");
    let nearest = run(&["nearest", &image]);
    assert_eq!((nearest.status, &nearest.err), (0, &note));
    // the first row is leaf 0, which is made here
    assert!(nearest.text().starts_with("page 0, entry 1, EAX bit 0\nleaf 00000001 EAX bit 0, "), "{}", nearest.text());
    let entries = run(&["entries", &image]);
    assert_eq!((entries.status, &entries.err), (0, &note));
    assert_eq!(entries.text().matches("  first\n").count(), EPYC_ROWS - 4);
    assert!(entries.text().starts_with(&format!("{image}: accepted, {EPYC_ROWS} rows\n")), "{}", entries.text());
    let written = run(&["from-dump", &image, "-o", "-"]);
    assert_eq!(run_on(&written.out, &["table", "-"]), run(&["table", EPYC]));
    let bytes = fs::read(&image).unwrap();
    let neither = folder.file("neither", &bytes[1..]);
    let ran = run(&["table", &neither]);
    assert_eq!((ran.status, ran.line()), (2, format!("{neither}: no CPUID pages, image, list for KVM, dump or sev=debug log").as_str()));
    // pages stay pages, whatever is on them
    let pages = folder.file("pages", set(&epyc()));
    assert!(run(&["table", &pages, "--origins"]).text().contains("  page 0 entry 1\n"));
}
