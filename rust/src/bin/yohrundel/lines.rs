//! Texts in lines of a width.

/// The columns of a text.
pub const WIDTH: usize = 80;

/// A sentence in lines of its own; nothing where it is empty.
pub fn paragraph(sentence: &str) -> String {
    if sentence.is_empty() {
        return String::new();
    }
    wrapped(sentence, WIDTH).join("\n") + "\n"
}

/// Words in lines of at most so many columns.
pub fn wrapped(words: &str, columns: usize) -> Vec<String> {
    let mut lines = vec![String::new()];
    for word in words.split(' ') {
        match lines.last_mut() {
            Some(line) if line.is_empty() => line.push_str(word),
            Some(line) if line.len() + 1 + word.len() <= columns => {
                line.push(' ');
                line.push_str(word);
            }
            _ => lines.push(word.into()),
        }
    }
    lines
}

#[cfg(test)]
mod tests {
    use super::*;

    #[test]
    fn lines_are_full() {
        assert_eq!(wrapped("", 4), [""]);
        assert_eq!(wrapped("ab cd efg", 5), ["ab cd", "efg"]);
        assert_eq!(wrapped("ab cd efg", 4), ["ab", "cd", "efg"]);
        assert_eq!(wrapped("abcdef g", 4), ["abcdef", "g"]);
    }

    #[test]
    fn paragraphs() {
        assert_eq!(paragraph(""), "");
        let (word, full) = ("x".repeat(39), format!("{0} {0}", "x".repeat(39)));
        assert_eq!(paragraph(&full), format!("{full}\n"));
        assert_eq!(paragraph(&format!("{full} y")), format!("{full}\ny\n"));
        assert_eq!(
            paragraph(&format!("{word} {word}xx")),
            format!("{word}\n{word}xx\n")
        );
    }
}
