//! The names of tanks. A tank that is there twice counts twice, so a name is the same one however it is written.

use crate::text::printable;

/// What a name may have beside letters, digits and blanks.
const SIGNS: &str = "-_./#";

#[derive(Debug)]
pub struct Name {
    /// As it is shown: white space counts as one blank.
    pub text: String,
    /// Its words and its numbers, one behind the other.
    parts: Vec<String>,
}

impl Name {
    /// A name of characters that nobody mistakes for another, or overlooks.
    pub fn read(text: &str) -> Result<Name, String> {
        let text = text.split_whitespace().collect::<Vec<_>>().join(" ");
        let known = |c: char| c.is_ascii_alphanumeric() || c == ' ' || SIGNS.contains(c);
        if let Some(other) = text.chars().find(|c| !known(*c)) {
            let other = printable(&other.to_string());
            return Err(format!("the name has `{other}`: use the letters a to z, digits, blanks and {SIGNS} alone."));
        }
        let parts = parts(&text);
        if parts.is_empty() {
            return Err("this tank has no name: write one before the colon, as `tank 1`.".to_string());
        }
        Ok(Name { text, parts })
    }

    /// Capitals, what stands between words and numbers, and zeros before a number make no other name.
    pub fn same(&self, other: &Name) -> bool {
        self.parts == other.parts
    }
}

/// Runs of letters, in small ones, and runs of digits, without zeros before them.
fn parts(text: &str) -> Vec<String> {
    let mut parts: Vec<String> = Vec::new();
    let mut before = None;
    for c in text.chars() {
        let digit = c.is_ascii_alphanumeric().then_some(c.is_ascii_digit());
        match parts.last_mut() {
            Some(part) if digit.is_some() && digit == before => part.push(c.to_ascii_lowercase()),
            _ if digit.is_some() => parts.push(c.to_ascii_lowercase().to_string()),
            _ => {}
        }
        before = digit;
    }
    parts
        .iter()
        .map(|part| if part.bytes().all(|b| b == b'0') { "0" } else { part.trim_start_matches('0') }.into())
        .collect()
}

#[cfg(test)]
mod tests {
    use super::*;

    fn name(text: &str) -> Name {
        Name::read(text).unwrap_or_else(|why| panic!("{text}: {why}"))
    }

    #[test]
    fn a_name_is_the_same_however_it_is_written() {
        for other in ["tank 1", "Tank 1", " tank\t\u{a0}1 ", "tank1", "tank 01", "TANK-001", "tank.1.", "#tank_1"] {
            assert!(name("tank 1").same(&name(other)), "{other}");
        }
        assert_eq!(name(" tank\t\u{a0}1 ").text, "tank 1");
        for other in ["tank 10", "tank", "1", "1 tank", "tank 1a", "tank 1 1", "tank l", "tank 0"] {
            assert!(!name("tank 1").same(&name(other)), "{other}");
        }
        assert!(!name("tank 1-2").same(&name("tank 12")));
        assert!(name("0").same(&name("000")) && !name("0").same(&name("10")));
    }

    #[test]
    fn a_name_has_no_character_that_is_overlooked_or_mistaken() {
        for (text, shown) in [
            ("tank 1\u{200b}", "\\u{200b}"),
            ("\u{feff}tank 1", "\\u{feff}"),
            ("tank\u{ad} 1", "\\u{ad}"),
            ("t\u{430}nk 1", "\u{430}"),
            ("caf\u{e9}", "\u{e9}"),
            ("tank 1,", ","),
            ("ggg? ", "?"),
            ("\0", "\\0"),
        ] {
            let why = Name::read(text).unwrap_err();
            assert!(why.starts_with(&format!("the name has `{shown}`: use the letters a to z")), "{why}");
        }
        for text in ["", "  ", "-", "# / ."] {
            assert!(Name::read(text).unwrap_err().starts_with("this tank has no name: write one"), "{text}");
        }
    }
}
