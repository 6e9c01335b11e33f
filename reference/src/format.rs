//! The two formats that a body may have.

use crate::limits::{EWAH_KIND, WAH_KIND, WAH_ROWS, WORD_BITS};
use crate::mistakes::{mistaken, Mistake};

#[derive(Debug, Clone, Copy, PartialEq, Eq, Hash)]
pub enum Format {
    /// Markers and dirty words.
    Ewah,
    /// Fills and literals.
    Wah,
}

impl Format {
    pub const ALL: [Format; 2] = [Format::Ewah, Format::Wah];

    /// Word 0 of an index with such bodies.
    pub fn kind(self) -> u32 {
        match self {
            Format::Ewah => EWAH_KIND,
            Format::Wah => WAH_KIND,
        }
    }

    /// Rows of a segment. Plain words have `WORD_BITS` rows in either format.
    pub fn width(self) -> usize {
        match self {
            Format::Ewah => WORD_BITS,
            Format::Wah => WAH_ROWS,
        }
    }

    /// What word 0 of an index says of its bodies.
    pub(crate) fn of_kind(kind: u32) -> Option<Format> {
        if mistaken(Mistake::KindThreeIsWah) && kind == 3 {
            return Some(Format::Wah);
        }
        if mistaken(Mistake::KindTwoRefused) && kind == WAH_KIND {
            return None;
        }
        Format::ALL.into_iter().find(|format| format.kind() == kind)
    }
}
