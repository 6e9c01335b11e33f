//! The colour classes: their letters in a log, and their names in a question.

use zvonurel::MOST_BITMAPS;

use crate::calendar::YEAR;
use crate::log::Entry;
use crate::number::grouped;
use crate::text::{joined, printable};

#[derive(Clone, Copy, Debug, PartialEq, Eq)]
pub enum Colour {
    Green,
    Amber,
    Red,
}

impl Colour {
    pub const ALL: [Colour; 3] = [Colour::Green, Colour::Amber, Colour::Red];

    pub fn name(self) -> &'static str {
        match self {
            Colour::Green => "green",
            Colour::Amber => "amber",
            Colour::Red => "red",
        }
    }

    /// The colour that a log writes so.
    fn of_letter(letter: char) -> Option<Colour> {
        match letter {
            'g' => Some(Colour::Green),
            'a' => Some(Colour::Amber),
            'r' => Some(Colour::Red),
            _ => None,
        }
    }
}

/// The colours that a question names: one, or several joined by `+`, each once.
pub fn asked(text: &str) -> Result<Vec<Colour>, String> {
    let mut colours = Vec::new();
    for part in text.split('+') {
        if part.is_empty() {
            return Err(format!("A colour is missing in `{text}`: join green, amber and red by +, as amber+red."));
        }
        let colour = Colour::ALL.into_iter().find(|colour| colour.name() == part).ok_or_else(|| {
            format!("`{part}` is no colour: ask for green, amber or red, or for several, as amber+red.")
        })?;
        if colours.contains(&colour) {
            return Err(format!("`{part}` is named twice: name each colour once."));
        }
        colours.push(colour);
    }
    Ok(colours)
}

/// The colours as a sentence has them.
pub fn any_of(colours: &[Colour]) -> String {
    joined(&colours.iter().map(|colour| colour.name()).collect::<Vec<_>>(), "or")
}

impl Entry for Colour {
    const NAME: &'static str = "letter";
    const EXAMPLE: &'static str = "gga";
    const EACH: &'static str = "a letter";
    const TANKS: usize = 12;
    /// An index has room for a bitmap of each colour of so many tanks.
    const MOST_TANKS: usize = MOST_BITMAPS as usize / Colour::ALL.len();
    /// Those of three centuries: an index of the most tanks has room for them, however they change.
    const MOST_ROWS: usize = 300 * YEAR;
    const MOST_BYTES: usize = 1;
    const GOES_ON: bool = false;

    /// Letters are one word: those that were parted are no shorter log.
    fn read(tank: &str, text: &str) -> Result<Vec<Colour>, String> {
        let words: Vec<&str> = text.split_whitespace().collect();
        if words.len() > 1 {
            return Err(format!("the letters of `{tank}` stand in {} parts: write them as one word.", words.len()));
        }
        let letters = words.iter().flat_map(|word| word.chars()).zip(1..);
        letters
            .map(|(letter, place)| {
                Colour::of_letter(letter).ok_or_else(|| {
                    let (place, letter) = (grouped(place), printable(&letter.to_string()));
                    format!("in `{tank}` letter {place} is `{letter}`: write g, a or r for each half hour.")
                })
            })
            .collect()
    }
}

#[cfg(test)]
mod tests {
    use zvonurel::{Format, ENTRY_WORDS, HEAD_WORDS, MOST_INDEX_WORDS, MOST_ROWS};

    use super::Colour::{Amber, Green, Red};
    use super::*;

    #[test]
    fn colours_are_named_once_each() {
        assert_eq!(asked("green"), Ok(vec![Green]));
        assert_eq!(asked("amber+red"), Ok(vec![Amber, Red]));
        assert_eq!(asked("red+green+amber"), Ok(vec![Red, Green, Amber]));
    }

    #[test]
    fn other_words_are_refused_at_the_first_fault() {
        for text in ["", "+", "amber+", "+red", "amber++red"] {
            assert!(asked(text).unwrap_err().starts_with(&format!("A colour is missing in `{text}`")), "{text}");
        }
        for (text, part) in
            [("ambr", "ambr"), ("Amber", "Amber"), ("a", "a"), ("red+blue+", "blue"), ("red red", "red red")]
        {
            assert!(asked(text).unwrap_err().starts_with(&format!("`{part}` is no colour")), "{text}");
        }
        for text in ["red+red", "red+amber+red", "red+red+blue"] {
            assert!(asked(text).unwrap_err().starts_with("`red` is named twice"), "{text}");
        }
    }

    #[test]
    fn letters_are_g_a_and_r_alone() {
        assert_eq!(['g', 'a', 'r'].map(Colour::of_letter), [Some(Green), Some(Amber), Some(Red)]);
        assert!(('\0'..='\u{2fff}').filter(|letter| Colour::of_letter(*letter).is_some()).eq(['a', 'g', 'r']));
    }

    #[test]
    fn a_sentence_has_any_of_them() {
        assert_eq!(any_of(&[Red]), "red");
        assert_eq!(any_of(&[Green, Amber, Red]), "green, amber or red");
    }

    #[test]
    fn an_index_has_room_for_the_most_letters() {
        let rows = u32::try_from(Colour::MOST_ROWS).expect("a number of rows");
        assert!((1..=MOST_ROWS).contains(&rows));
        for format in [Format::Ewah, Format::Wah] {
            let bitmap_words = ENTRY_WORDS + format.most_body_words(rows);
            let words = HEAD_WORDS + Colour::MOST_TANKS * Colour::ALL.len() * bitmap_words;
            assert!(words <= MOST_INDEX_WORDS, "{words}");
        }
    }

    #[test]
    fn letters_are_one_word() {
        assert_eq!(Colour::read("t1", " gar\t"), Ok(vec![Green, Amber, Red]));
        assert_eq!(Colour::read("t1", " "), Ok(Vec::new()));
        for (letters, parts) in [("ggg aag", 2), ("ggg, aag", 2), ("ggg? aaa", 2), ("x g\u{a0}g  g", 4), (": g", 2)] {
            let what = format!("the letters of `t1` stand in {parts} parts: write them as one word.");
            assert_eq!(Colour::read("t1", letters), Err(what), "{letters}");
        }
    }

    #[test]
    fn letters_are_g_a_and_r() {
        for (letters, shown) in
            [("x", "x"), ("Gx", "G"), ("\u{1b}", "\\u{1b}"), ("\u{200b}g", "\\u{200b}"), ("ä", "ä"), (":g", ":")]
        {
            let what = format!("in `t1` letter 17 is `{shown}`: write g, a or r for each half hour.");
            assert_eq!(Colour::read("t1", &format!("{}{letters}", "g".repeat(16))), Err(what));
        }
    }
}
