//! The name that was most likely meant where there is none of the given one.

use std::ffi::OsStr;

/// A reason that names what is not there, with the nearest name where one is near.
pub fn or_nearest(
    reason: String,
    given: &OsStr,
    names: impl Iterator<Item = &'static str>,
) -> String {
    let given = given.to_string_lossy();
    match nearest(&given, names) {
        Some(name) => format!("{reason}, the nearest is {name}"),
        None => reason,
    }
}

/// The name that differs least, the first of several, where it is near.
fn nearest(given: &str, names: impl Iterator<Item = &'static str>) -> Option<&'static str> {
    let given = given.to_lowercase();
    let near = names.filter(|name| is_near(&given, name));
    near.min_by_key(|name| distance(&given, name))
}

/// Whether the name begins with the given two letters or more, or at most a third of its letters differ.
fn is_near(given: &str, name: &str) -> bool {
    let letters = |text: &str| text.trim_start_matches('-').chars().count();
    let begins = name.starts_with(given) && letters(given) >= 2;
    begins || 3 * distance(given, name) <= letters(name)
}

/// How many letters must be put in, left out, replaced or exchanged with the next one.
fn distance(from: &str, to: &str) -> usize {
    let (from, to): (Vec<char>, Vec<char>) = (from.chars().collect(), to.chars().collect());
    let mut rows = vec![(0..=to.len()).collect::<Vec<usize>>()];
    for left in 1..=from.len() {
        let mut row = vec![left];
        for right in 1..=to.len() {
            let replaced = usize::from(from[left - 1] != to[right - 1]);
            let mut least = (rows[left - 1][right] + 1)
                .min(row[right - 1] + 1)
                .min(rows[left - 1][right - 1] + replaced);
            if exchanged(&from[..left], &to[..right]) {
                least = least.min(rows[left - 2][right - 2] + 1);
            }
            row.push(least);
        }
        rows.push(row);
    }
    rows[from.len()][to.len()]
}

/// Whether the last two letters of one are those of the other in the other order.
fn exchanged(from: &[char], to: &[char]) -> bool {
    match (from, to) {
        ([.., a, b], [.., c, d]) => (a, b) == (d, c),
        _ => false,
    }
}

#[cfg(test)]
mod tests {
    use super::*;

    #[test]
    fn distances() {
        for (from, to, expected) in [
            ("", "", 0),
            ("", "abc", 3),
            ("play", "play", 0),
            ("paly", "play", 1),
            ("ply", "play", 1),
            ("plway", "play", 1),
            ("plan", "play", 1),
            ("kitten", "sitting", 3),
            ("sunday", "saturday", 3),
        ] {
            assert_eq!(distance(from, to), expected, "{from} {to}");
            assert_eq!(distance(to, from), expected, "{to} {from}");
        }
    }

    #[test]
    fn near_names() {
        let near = |given| nearest(given, ["--sizes", "--bank1", "--bank2", "-o"].into_iter());
        assert_eq!(near("--siezs"), Some("--sizes"));
        assert_eq!(near("--SIZE"), Some("--sizes"));
        assert_eq!(near("--bank3"), Some("--bank1"));
        assert_eq!(near("--ban"), Some("--bank1"));
        assert_eq!(near("-O"), Some("-o"));
        assert_eq!(near("--b"), None);
        assert_eq!(near("--sheets"), None);
        assert_eq!(near("-6"), None);
        assert_eq!(near("--out"), None);
    }
}
