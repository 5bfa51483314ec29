//! The word that was meant by one that is not there.

/// The nearest of the words, where it is near enough: at most a third of its letters, and at least one, are wrong, missing, too many or swapped, or
/// the word begins it.
pub fn nearest<'a>(word: &str, words: impl Iterator<Item = &'a str>) -> Option<&'a str> {
    let near = words.map(|other| (distance(word, other), other));
    let near = near.filter(|(far, other)| *far <= (other.len() / 3).max(1) || (word.len() >= 2 && other.starts_with(word)));
    near.min_by_key(|(far, _)| *far).map(|(_, other)| other)
}

/// How many letters must be put in, taken out, exchanged or swapped with their neighbour to make one word of the other.
fn distance(a: &str, b: &str) -> usize {
    let (a, b): (Vec<char>, Vec<char>) = (a.chars().collect(), b.chars().collect());
    let mut rows: Vec<Vec<usize>> = vec![(0..=b.len()).collect()];
    for i in 1..=a.len() {
        let mut row = vec![i];
        for j in 1..=b.len() {
            let same = rows[i - 1][j - 1] + usize::from(a[i - 1] != b[j - 1]);
            let swapped = i > 1 && j > 1 && a[i - 1] == b[j - 2] && a[i - 2] == b[j - 1];
            let swap = if swapped { rows[i - 2][j - 2] + 1 } else { usize::MAX };
            row.push(same.min(rows[i - 1][j] + 1).min(row[j - 1] + 1).min(swap));
        }
        rows.push(row);
    }
    rows[a.len()][b.len()]
}
