//! Words that another 32-bit EWAH library wrote, as a body.
//!
//! Such words are markers and dirty words as here, but around their end they may say more than they mean, or less than
//! is wanted. The order of the steps matters: first the words are held to their own number of bits, which is taken at
//! its word, and only then the rows are cut out or made longer.

use std::error::Error;
use std::fmt;

use crate::{compress, most_body_words, segments, Refusal};
use crate::{CLEAN_SHIFT, DIRTY_SHIFT, MOST_CLEAN, MOST_ROWS, WORD_BITS};

const SEGMENT_ROWS: u64 = WORD_BITS as u64;
const WORD_BYTES: usize = WORD_BITS / 8;

/// Why words were not imported. A place is that of a word among the words given, counted from 0.
#[derive(Clone, Copy, Debug, PartialEq, Eq, Hash)]
#[non_exhaustive]
pub enum NotImported {
    /// More than [`MOST_ROWS`] rows are wanted.
    TooManyRows {
        /// The rows wanted.
        rows: u32,
    },
    /// The dirty words of a marker pass the words' end: the file was cut off, or the word is no marker.
    DirtyPastEnd {
        /// The marker's place.
        word: usize,
    },
    /// A marker counts more segments than the bits have left: the number of bits is another bitmap's, or the word is no
    /// marker.
    TooManySegments {
        /// The marker's place.
        word: usize,
    },
    /// The words are over before all segments of the bits were said: the file was cut off, or the number of bits is
    /// another bitmap's.
    SegmentsMissing {
        /// How many were said.
        said: u64,
        /// How many the bits have.
        segments: u64,
    },
    /// A dirty word sets a bit behind the last one. Whether that is a row can't be known: the maker has to say.
    BitBehindEnd {
        /// The dirty word's place.
        word: usize,
    },
    /// A row is set that is not among the rows wanted.
    RowNotWanted {
        /// The lowest such row.
        row: u64,
        /// The rows wanted.
        rows: u32,
    },
    /// The file does not have as many bytes as its head says.
    FileLength {
        /// How many it has.
        bytes: usize,
        /// How many it should have, at least those of a head and a trailer.
        needed: u64,
    },
    /// The file's trailer names another word as the last marker. The library that wrote the file went on writing at the
    /// wrong place, or will: its rows may be damaged.
    LastMarker {
        /// The place that the trailer names.
        stated: u32,
        /// The last marker's place; 0 where there is none.
        found: usize,
    },
    /// The library refused the rows, which can't be once all of the above is ruled out.
    Refused(Refusal),
}

impl fmt::Display for NotImported {
    fn fmt(&self, f: &mut fmt::Formatter<'_>) -> fmt::Result {
        match *self {
            NotImported::TooManyRows { rows } => write!(f, "{rows} rows are wanted, and {MOST_ROWS} are the most"),
            NotImported::DirtyPastEnd { word } => write!(f, "word {word}: the marker's dirty words pass the end"),
            NotImported::TooManySegments { word } => {
                write!(f, "word {word}: the marker counts more segments than the bits have left")
            }
            NotImported::SegmentsMissing { said, segments } => {
                write!(f, "the words say {said} segments, and the bits have {segments}")
            }
            NotImported::BitBehindEnd { word } => {
                write!(f, "word {word}: a bit behind the last one is set, which may or may not be a row")
            }
            NotImported::RowNotWanted { row, rows } => write!(f, "row {row} is set, and {rows} rows are wanted"),
            NotImported::FileLength { bytes, needed } => write!(f, "the file has {bytes} bytes, and needs {needed}"),
            NotImported::LastMarker { stated, found } => {
                write!(f, "the trailer names word {stated} as the last marker, and that is word {found}")
            }
            NotImported::Refused(refusal) => write!(f, "{refusal}"),
        }
    }
}

impl Error for NotImported {
    fn source(&self) -> Option<&(dyn Error + 'static)> {
        match self {
            NotImported::Refused(refusal) => Some(refusal),
            _ => None,
        }
    }
}

/// Makes a body, in canonical form, of words that another 32-bit EWAH library wrote for a bitmap of so many bits. The
/// body has `rows` rows, and exactly the rows that the words set; where they can't be had, it says why.
///
/// - The words are those of the buffer alone, each as a number: no header, no trailer, bytes in the right order.
/// - `bits` is what that library says, and is taken at its word: a run of ones over their end sets the real ones only.
/// - Rows past the bits are not set. Bits past the rows must not be set.
/// - Rows that were wrong when the library wrote them can't be seen here; a file's trailer, which [`import_java`] reads,
///   shows some.
///
/// # Errors
/// See [`NotImported`]. The first fault from front to back is told.
///
/// ```
/// use zvonurel::{import, NotImported};
///
/// // a run of two segments of ones for 40 bits: its 40 rows are set, also of 96
/// assert_eq!(import(&[0x5], 40, 40), Ok(vec![0x5]));
/// assert_eq!(import(&[0x5], 40, 96), Ok(vec![0x20003, 0xFF, 0x2]));
/// // 64 bits, all set, of which 40 rows are wanted
/// assert_eq!(import(&[0x5], 64, 40), Err(NotImported::RowNotWanted { row: 40, rows: 40 }));
/// // 64 bits, none set past row 39: the number of bits was rounded up
/// assert_eq!(import(&[0x40000, 0x1, 0x80], 64, 40), Ok(vec![0x40000, 0x1, 0x80]));
/// // a bit behind the end
/// assert_eq!(import(&[0x40000, 0x1, 0x180], 40, 40), Err(NotImported::BitBehindEnd { word: 2 }));
/// ```
pub fn import(words: &[u32], bits: u64, rows: u32) -> Result<Vec<u32>, NotImported> {
    if rows > MOST_ROWS {
        return Err(NotImported::TooManyRows { rows });
    }
    let mut wanted = Wanted { bits, rows, plain: vec![0; segments(rows)] };
    let all = bits.div_ceil(SEGMENT_ROWS);
    let (mut place, mut said) = (0, 0);
    while place < words.len() {
        let (ones, clean, dirty) = fields(words[place]);
        let behind = &words[place + 1..];
        if dirty > behind.len() {
            return Err(NotImported::DirtyPastEnd { word: place });
        }
        if clean + dirty as u64 > all - said {
            return Err(NotImported::TooManySegments { word: place });
        }
        if ones {
            wanted.set_run(said, clean)?;
        }
        said += clean;
        wanted.set_words(said, &behind[..dirty], place + 1)?;
        said += dirty as u64;
        place += 1 + dirty;
    }
    match said == all {
        true => wanted.body(),
        false => Err(NotImported::SegmentsMissing { said, segments: all }),
    }
}

/// Makes a body of a whole file as JavaEWAH's 32-bit class serializes it: the number of bits, the number of words, the
/// words, and the place of the last marker, each four bytes, the highest first. For the rows see [`import`].
///
/// # Errors
/// See [`NotImported`].
///
/// ```
/// // 40 bits, one word, a run of two segments of ones, which is the last marker
/// let file = [0, 0, 0, 40, 0, 0, 0, 1, 0, 0, 0, 5, 0, 0, 0, 0];
/// assert_eq!(zvonurel::import_java(&file, 40), Ok(vec![0x5]));
/// ```
pub fn import_java(file: &[u8], rows: u32) -> Result<Vec<u32>, NotImported> {
    let numbers: Vec<u32> =
        file.chunks_exact(WORD_BYTES).map(|b| u32::from_be_bytes([b[0], b[1], b[2], b[3]])).collect();
    // the words, and around them the number of bits, their own number and the place
    let count = numbers.get(1).copied().unwrap_or(0);
    let needed = WORD_BYTES as u64 * (u64::from(count) + 3);
    if file.len() as u64 != needed {
        return Err(NotImported::FileLength { bytes: file.len(), needed });
    }
    let (words, stated) = (&numbers[2..numbers.len() - 1], numbers[numbers.len() - 1]);
    let body = import(words, numbers[0].into(), rows)?;
    match last_marker(words) {
        found if found == stated as usize => Ok(body),
        found => Err(NotImported::LastMarker { stated, found }),
    }
}

/// The place of the last marker, 0 where there is no word.
fn last_marker(words: &[u32]) -> usize {
    let (mut last, mut place) = (0, 0);
    while place < words.len() {
        last = place;
        place += 1 + fields(words[place]).2;
    }
    last
}

/// A marker's value, its clean segments and its dirty words.
fn fields(marker: u32) -> (bool, u64, usize) {
    let clean = (marker >> CLEAN_SHIFT) as usize & MOST_CLEAN;
    (marker & 1 == 1, clean as u64, (marker >> DIRTY_SHIFT) as usize)
}

/// The rows wanted, as plain words, and the bits that the words are held to.
struct Wanted {
    bits: u64,
    rows: u32,
    plain: Vec<u32>,
}

impl Wanted {
    /// Sets the real rows of so many segments.
    fn set_run(&mut self, segment: u64, segments: u64) -> Result<(), NotImported> {
        let first = segment * SEGMENT_ROWS;
        let end = ((segment + segments) * SEGMENT_ROWS).min(self.bits);
        for row in first..end {
            self.set(row)?;
        }
        Ok(())
    }

    /// Sets the rows of dirty words, of which the first says this segment and stands at this place.
    fn set_words(&mut self, segment: u64, dirty: &[u32], place: usize) -> Result<(), NotImported> {
        for (i, word) in dirty.iter().enumerate() {
            let first = (segment + i as u64) * SEGMENT_ROWS;
            for bit in (0..SEGMENT_ROWS).filter(|bit| word >> bit & 1 == 1) {
                if first + bit >= self.bits {
                    return Err(NotImported::BitBehindEnd { word: place + i });
                }
                self.set(first + bit)?;
            }
        }
        Ok(())
    }

    /// Sets one row, if it is wanted.
    fn set(&mut self, row: u64) -> Result<(), NotImported> {
        if row >= u64::from(self.rows) {
            return Err(NotImported::RowNotWanted { row, rows: self.rows });
        }
        self.plain[(row / SEGMENT_ROWS) as usize] |= 1 << (row % SEGMENT_ROWS);
        Ok(())
    }

    /// The body of the rows that were set.
    fn body(self) -> Result<Vec<u32>, NotImported> {
        let mut body = vec![0; most_body_words(self.rows)];
        let words = compress(self.rows, &self.plain, &mut body).map_err(NotImported::Refused)?;
        body.truncate(words);
        Ok(body)
    }
}
