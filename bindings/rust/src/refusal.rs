//! Why a call was refused.

use std::error::Error;
use std::fmt;

use crate::{BadArgument, ENTRY_WORDS, HEAD_WORDS, INDEX_KIND, WAH_INDEX_KIND};
use crate::{MOST_BITMAPS, MOST_INDEX_WORDS, MOST_ROWS};

/// Why a call was refused: a number from 1 to 12, and where.
///
/// A body that stands alone is bitmap 0, with places counted in the body. As text it is a sentence:
///
/// ```
/// use zvonurel::Refusal;
///
/// // the marker says that two dirty words follow, and one does
/// let refusal = zvonurel::check_body(&[0x0004_0000, 1], 40).unwrap_err();
/// assert_eq!(refusal.numbers(), (Refusal::DIRTY_PAST_END, 0, 0));
/// assert_eq!(refusal.to_string(), "bitmap 0, word 0: the marker's dirty words pass the body's end (refusal 5)");
///
/// // in WAH, a fill that counts nothing
/// let refusal = zvonurel::wah::check_body(&[0x0000_0001, 0x8000_0000], 40).unwrap_err();
/// assert_eq!(refusal.numbers(), (Refusal::NO_SEGMENTS, 0, 1));
/// assert_eq!(refusal.to_string(), "bitmap 0, word 1: the fill counts no segments (refusal 10)");
///
/// let refusal = zvonurel::body_row(&[0x0000_0004], 40, 40).unwrap_err();
/// assert_eq!(refusal.to_string(), "a bad argument: there is no row 40, of 40 counted from 0 (refusal 8)");
/// ```
#[derive(Clone, Copy, Debug, PartialEq, Eq, Hash)]
#[non_exhaustive]
pub struct Refusal {
    /// What is wrong: one of this type's named numbers.
    pub number: u32,
    /// The bitmap that has the fault; 0 where the fault is no bitmap's.
    pub bitmap: u32,
    /// The place of the word at fault, or what `number` says.
    pub word: u64,
    /// Which argument it was, as the binding sees it, where `number` is [`Refusal::BAD_ARGUMENT`].
    pub argument: Option<BadArgument>,
}

impl Refusal {
    /// The index is too short for its head and its contents; `word` is its length.
    pub const TOO_SHORT: u32 = 1;
    /// Word 0 of the index is neither [`INDEX_KIND`] nor [`WAH_INDEX_KIND`].
    pub const NOT_AN_INDEX: u32 = 2;
    /// More than [`MOST_INDEX_WORDS`] words (`word` 0), [`MOST_ROWS`] rows (`word` 1) or [`MOST_BITMAPS`] bitmaps
    /// (`word` 2).
    pub const TOO_LARGE: u32 = 3;
    /// The contents name a wrong start or length, at `word`, or the index goes on behind the last body, which ends at
    /// `word`.
    pub const BAD_CONTENTS: u32 = 4;
    /// The dirty words of the marker at `word` pass the body's end.
    pub const DIRTY_PAST_END: u32 = 5;
    /// The marker, the literal or the fill at `word` says more segments than are left, or the body ends at `word` with
    /// segments missing.
    pub const BAD_COUNT: u32 = 6;
    /// The dirty word, literal or plain word at `word` sets a bit behind the last row.
    pub const PAD_BIT: u32 = 7;
    /// A bad argument; `argument` says which.
    pub const BAD_ARGUMENT: u32 = 8;
    /// The answer doesn't fit into the buffer; or it is an index of more than [`MOST_INDEX_WORDS`] words, which no
    /// buffer helps. `word` is how many words it has.
    pub const NO_ROOM: u32 = 9;
    /// The fill at `word`, of a body in WAH, counts no segments.
    pub const NO_SEGMENTS: u32 = 10;
    /// Bitmap `bitmap`, a slice of a column, has row `word`, which does not exist in that column.
    pub const STRAY_ROW: u32 = 11;
    /// A writer's state and its buffer do not belong together: see [`append`](crate::append).
    pub const STATE_MISMATCH: u32 = 12;

    /// The number, the bitmap and the word, as the library, C and the program tell them.
    #[must_use]
    pub const fn numbers(&self) -> (u32, u32, u64) {
        (self.number, self.bitmap, self.word)
    }
}

impl fmt::Display for Refusal {
    fn fmt(&self, f: &mut fmt::Formatter<'_>) -> fmt::Result {
        let Refusal { number, bitmap, word, argument } = *self;
        match number {
            Refusal::TOO_SHORT => write!(f, "the index has {word} words, too few for its head and its contents")?,
            Refusal::NOT_AN_INDEX => {
                write!(f, "word 0 is neither {INDEX_KIND} nor {WAH_INDEX_KIND}, so this is no index")?
            }
            Refusal::TOO_LARGE => match word {
                0 => write!(f, "the index has more than {MOST_INDEX_WORDS} words")?,
                1 => write!(f, "there are more than {MOST_ROWS} rows")?,
                _ => write!(f, "there are more than {MOST_BITMAPS} bitmaps")?,
            },
            Refusal::BAD_CONTENTS => contents_fault(f, bitmap, word)?,
            Refusal::DIRTY_PAST_END => {
                write!(f, "bitmap {bitmap}, word {word}: the marker's dirty words pass the body's end")?
            }
            Refusal::BAD_COUNT => write!(
                f,
                "bitmap {bitmap}, word {word}: this word says more segments than are left, or the body ends here \
                 with segments missing"
            )?,
            Refusal::PAD_BIT => write!(f, "bitmap {bitmap}, word {word}: a bit behind the last row is set")?,
            Refusal::BAD_ARGUMENT => match argument {
                Some(argument) => write!(f, "a bad argument: {argument}")?,
                None => write!(f, "a bad argument")?,
            },
            // of all answers an index alone can be so long
            Refusal::NO_ROOM if word > MOST_INDEX_WORDS as u64 => {
                write!(f, "the answer is an index of {word} words, and {MOST_INDEX_WORDS} are the most")?
            }
            Refusal::NO_ROOM => write!(f, "the buffer is too short for an answer of {word} words")?,
            Refusal::NO_SEGMENTS => write!(f, "bitmap {bitmap}, word {word}: the fill counts no segments")?,
            Refusal::STRAY_ROW => {
                write!(f, "bitmap {bitmap}: this slice has row {word}, which is not in the existence bitmap")?
            }
            Refusal::STATE_MISMATCH => write!(f, "the writer's state and its buffer do not belong together")?,
            _ => write!(f, "bitmap {bitmap}, word {word}")?,
        }
        write!(f, " (refusal {number})")
    }
}

const ENTRY: u64 = ENTRY_WORDS as u64;
/// The places of bitmap 0's entry and of bitmap 1's.
const FIRST: u64 = HEAD_WORDS as u64;
const SECOND: u64 = FIRST + ENTRY;

/// An entry is a start with its length behind it, so a place that is whole entries from `FIRST` is a start's. With
/// bitmap 0 a place past its own entry is where the last body ends; `FIRST` may be either.
fn contents_fault(f: &mut fmt::Formatter<'_>, bitmap: u32, word: u64) -> fmt::Result {
    match (bitmap, word) {
        (0, FIRST) => {
            write!(f, "word {word}: bitmap 0 has the wrong start, or there is no bitmap and the index goes on")
        }
        (0, SECOND..) => write!(f, "word {word}: the last body ends here, and the index goes on"),
        _ if word % ENTRY == FIRST % ENTRY => {
            write!(f, "bitmap {bitmap}, word {word}: this start is not where the words before end")
        }
        _ => write!(f, "bitmap {bitmap}, word {word}: this length passes the index's end"),
    }
}

impl Error for Refusal {}
