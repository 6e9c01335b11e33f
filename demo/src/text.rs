//! What stands in sentences: a log's own text, and lists.

/// A character that can't be seen, or would steer a terminal, by its number.
pub fn printable(text: &str) -> String {
    text.chars().map(|c| if "\"'\\".contains(c) { c.to_string() } else { c.escape_debug().to_string() }).collect()
}

/// Words as a sentence has them: `amber`, `amber or red`, `green, amber or red`.
pub fn joined(words: &[&str], by: &str) -> String {
    match words.split_last() {
        Some((last, before)) if !before.is_empty() => format!("{} {by} {last}", before.join(", ")),
        _ => words.concat(),
    }
}

#[cfg(test)]
mod tests {
    use super::*;

    #[test]
    fn the_last_two_words_are_joined_by_another() {
        assert_eq!(joined(&["red"], "or"), "red");
        assert_eq!(joined(&["amber", "red"], "or"), "amber or red");
        assert_eq!(joined(&["tank 1", "tank 2", "tank 3"], "and"), "tank 1, tank 2 and tank 3");
    }
}
