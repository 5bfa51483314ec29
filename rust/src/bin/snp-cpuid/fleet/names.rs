//! The names by which a report calls servers.

use super::Server;

/// A part of a file's name.
type Part = fn(&str) -> &str;

/// Gives each server the shortest name of its file that no other has: without folder and usual ending, without folder alone, or as it is. The servers
/// are put into the order of their names.
pub fn name_shortly(servers: &mut [Server]) {
    let unlike = |part: &Part| {
        let mut names: Vec<&str> = servers.iter().map(|server| part(server.file())).collect();
        names.sort_unstable();
        names.windows(2).all(|pair| pair[0] != pair[1])
    };
    let part = [stem, bare].into_iter().find(unlike).unwrap_or(|file| file);
    servers.iter_mut().for_each(|server| server.call(part));
    servers.sort_unstable_by(|a, b| (a.name(), a.file()).cmp(&(b.name(), b.file())));
}

/// The file without its folder.
fn bare(file: &str) -> &str {
    file.rsplit('/').next().unwrap_or(file)
}

/// The file without its folder, and without a usual ending.
fn stem(file: &str) -> &str {
    let ends = [".pages", ".page", ".image", ".list", ".dump", ".dmesg", ".txt", ".bin"];
    let bare = bare(file);
    ends.iter().find_map(|end| bare.strip_suffix(end)).filter(|stem| !stem.is_empty()).unwrap_or(bare)
}
