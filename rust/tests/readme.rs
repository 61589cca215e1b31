//! README's snippet in Rust is the crate's own example, which is run with the documentation's tests.

/// The lines between the first two fences, of which the first line begins with `fence`.
fn block(text: &str, fence: &str) -> Vec<String> {
    let lines = text.lines().skip_while(|line| *line != fence).skip(1);
    let inside = lines.take_while(|line| *line != "```");
    inside.map(String::from).collect()
}

#[test]
fn snippet_is_the_crate_example() {
    let readme = block(include_str!("../../README.md"), "```rust");
    let comments: Vec<&str> = include_str!("../src/lib.rs")
        .lines()
        .filter_map(|line| line.strip_prefix("//!"))
        .map(|line| line.strip_prefix(' ').unwrap_or(line))
        .collect();
    assert!(!readme.is_empty());
    assert_eq!(readme, block(&comments.join("\n"), "```"));
}
