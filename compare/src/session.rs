//! Asks both, compares everything, counts, and keeps the first difference.

use reference::Mistake;

use crate::ask::{ask_library, ask_reference, Outcome};
use crate::places::{asked_format, place_of, Reached};
use crate::question::Question;

pub struct Difference {
    pub words: Vec<u32>,
    pub question: Question,
    pub library: Outcome,
    pub reference: Outcome,
}

pub struct Session {
    pub mistake: Option<Mistake>,
    pub reached: Reached,
    pub comparisons: u64,
    pub difference: Option<Difference>,
}

impl Session {
    pub fn new(mistake: Option<Mistake>) -> Session {
        Session { mistake, reached: Reached::new(), comparisons: 0, difference: None }
    }

    /// Puts one question to both. After a difference nothing more is asked.
    pub fn ask(&mut self, words: &[u32], question: Question) {
        self.answer(words, question);
    }

    /// The same, for what both say.
    pub fn answer(&mut self, words: &[u32], question: Question) -> Option<Outcome> {
        if self.difference.is_some() {
            return None;
        }
        let library = ask_library(words, &question);
        let reference = ask_reference(words, &question, self.mistake);
        self.comparisons += 1;
        if library != reference {
            self.difference = Some(Difference { words: words.to_vec(), question, library, reference });
            return None;
        }
        if self.mistake.is_none() {
            let refused = library.result.as_ref().err();
            let place = place_of(words, &question, refused.copied());
            self.reached.add(place, question.call, asked_format(words, &question));
        }
        Some(library)
    }

    /// Takes over what another one reached.
    pub fn add(&mut self, other: &Session) {
        self.comparisons += other.comparisons;
        self.reached.add_all(&other.reached);
    }
}
