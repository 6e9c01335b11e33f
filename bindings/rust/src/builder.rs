//! Indexes made of bodies.

use crate::{check, lone, segments, BadArgument, Format, Refusal};
use crate::{ENTRY_WORDS, HEAD_WORDS, MOST_COLUMN, WORD_BITS};

/// The words of an index in EWAH of these bodies, in order, with its contents right.
///
/// The rows and the bodies are taken as they are: [`check`], or any question, says whether the index is sound.
///
/// ```
/// assert_eq!(zvonurel::index_of(64, &[[0x4], [0x5]]), [1, 64, 2, 7, 1, 8, 1, 0x4, 0x5]);
/// ```
#[must_use]
pub fn index_of<B: AsRef<[u32]>>(rows: u32, bodies: &[B]) -> Vec<u32> {
    laid_out(Format::Ewah, rows, bodies)
}

pub(crate) fn laid_out<B: AsRef<[u32]>>(format: Format, rows: u32, bodies: &[B]) -> Vec<u32> {
    // an index in which one of these numbers passes a word is longer than an index may be, and so is refused
    let word = |n: usize| u32::try_from(n).unwrap_or(u32::MAX);
    let mut start = HEAD_WORDS + ENTRY_WORDS * bodies.len();
    let mut index = vec![format.index_kind(), rows, word(bodies.len())];
    for body in bodies {
        let length = body.as_ref().len();
        index.extend([word(start), word(length)]);
        start += length;
    }
    for body in bodies {
        index.extend_from_slice(body.as_ref());
    }
    index
}

/// The rows that exist and have a value of which `wanted` holds.
fn rows_with<'v>(values: &'v [Option<u32>], wanted: impl Fn(u32) -> bool + 'v) -> impl Iterator<Item = u32> + 'v {
    (0..).zip(values).filter(move |(_, value)| value.is_some_and(&wanted)).map(|(row, _)| row)
}

/// An argument that is refused here, as the library would.
fn refused<T>(argument: BadArgument) -> Result<T, Refusal> {
    Err(Refusal { number: Refusal::BAD_ARGUMENT, bitmap: 0, word: 0, argument: Some(argument) })
}

/// An index in the making. Every bitmap of it has the same rows and the same format, and is numbered from 0 in the
/// order of the calls.
///
/// ```
/// use zvonurel::IndexBuilder;
///
/// let mut builder = IndexBuilder::new(4);
/// builder.add_rows([0, 1])?;
/// builder.add_plain(&[0b1110])?;
/// builder.add_body(&[0x20000, 0b1000])?;
/// let index = builder.build()?;
///
/// // and an answer becomes a bitmap of a new index
/// let mut out = [0; zvonurel::most_body_words(4)];
/// let answer = zvonurel::threshold(&index, &[0, 1, 2], 2, &mut out)?;
/// let mut builder = IndexBuilder::new(4);
/// let k = builder.add_body(&out[..answer.words])?;
/// let answers = builder.build()?;
/// assert_eq!(zvonurel::count(&answers, k), Ok(2));
/// # Ok::<(), zvonurel::Refusal>(())
/// ```
#[derive(Clone, Debug)]
#[must_use = "an index is made by `build`"]
pub struct IndexBuilder {
    format: Format,
    rows: u32,
    bodies: Vec<Vec<u32>>,
}

impl IndexBuilder {
    /// An index of that many rows in EWAH, with no bitmap yet.
    pub fn new(rows: u32) -> IndexBuilder {
        IndexBuilder::with_format(rows, Format::Ewah)
    }

    /// An index of that many rows in that format, with no bitmap yet.
    ///
    /// ```
    /// use zvonurel::{Format, IndexBuilder};
    ///
    /// let mut builder = IndexBuilder::with_format(40, Format::Wah);
    /// builder.add_plain(&[0xFFFF_FFFF, 0xFF])?;
    /// builder.add_body(&[0x1, 0x100])?;
    /// assert_eq!(builder.build()?, [2, 40, 2, 7, 1, 8, 2, 0xC000_0002, 0x1, 0x100]);
    /// # Ok::<(), zvonurel::Refusal>(())
    /// ```
    pub fn with_format(rows: u32, format: Format) -> IndexBuilder {
        IndexBuilder { format, rows, bodies: Vec::new() }
    }

    /// Adds a bitmap by its body in the index's format, which is kept as it is, and returns its number.
    ///
    /// # Errors
    /// 3 for too many rows or bitmaps; 5, 6 or 7, in WAH 6, 7 or 10, for the body's first fault. Then nothing is
    /// added.
    pub fn add_body(&mut self, body: &[u32]) -> Result<u32, Refusal> {
        self.check_room(1)?;
        lone::check_body(self.format, body, self.rows)?;
        Ok(self.push(body.to_vec()))
    }

    /// Adds a bitmap by its plain words, and returns its number.
    ///
    /// # Errors
    /// 3 for too many rows or bitmaps; 8 unless there is one word for each [`WORD_BITS`] rows; 7 where the last has a
    /// bit behind the last row. Then nothing is added.
    pub fn add_plain(&mut self, plain: &[u32]) -> Result<u32, Refusal> {
        self.check_room(1)?;
        let mut body = vec![0; self.format.most_body_words(self.rows)];
        let words = lone::compress(self.format, self.rows, plain, &mut body)?;
        body.truncate(words);
        body.shrink_to_fit();
        Ok(self.push(body))
    }

    /// Adds a bitmap by its set rows, in any order, and returns its number.
    ///
    /// # Errors
    /// 3 for too many rows or bitmaps; 8 for a row that is not there. Then nothing is added.
    pub fn add_rows(&mut self, set: impl IntoIterator<Item = u32>) -> Result<u32, Refusal> {
        self.check_room(1)?;
        let rows = self.rows;
        let mut plain = vec![0; segments(rows)];
        for row in set {
            if row >= rows {
                return refused(BadArgument::Row { row, rows });
            }
            plain[row as usize / WORD_BITS] |= 1 << (row as usize % WORD_BITS);
        }
        self.add_plain(&plain)
    }

    /// Adds the bitmaps of a column, existence and that many slices, the lowest first, and returns the list of their
    /// numbers, which names it. A row whose value is `None` does not exist.
    ///
    /// # Errors
    /// 3 for too many rows or bitmaps; 8 unless there is one value, or `None`, for each row, for no slices or more than
    /// 32, and for a value that has more binary digits than there are slices. Then nothing is added.
    ///
    /// ```
    /// use zvonurel::IndexBuilder;
    ///
    /// let mut builder = IndexBuilder::new(3);
    /// let column = builder.add_column(&[Some(6), None, Some(1)], 3)?;
    /// assert_eq!(column, [0, 1, 2, 3]);
    /// let index = builder.build()?;
    /// assert_eq!(zvonurel::value(&index, &column, 0), Ok(6));
    /// assert_eq!(zvonurel::value(&index, &column, 1).unwrap_err().number, 8);
    /// # Ok::<(), zvonurel::Refusal>(())
    /// ```
    pub fn add_column(&mut self, values: &[Option<u32>], slices: usize) -> Result<Vec<u32>, Refusal> {
        self.check_room(slices.saturating_add(1))?;
        let rows = self.rows;
        if values.len() != rows as usize {
            return refused(BadArgument::Values { values: values.len(), rows });
        }
        if !(1..MOST_COLUMN).contains(&slices) {
            return refused(BadArgument::Slices { slices });
        }
        let most = u32::MAX >> (MOST_COLUMN - 1 - slices);
        let wide = (0..).zip(values).find_map(|(row, value)| Some((row, value.filter(|value| *value > most)?)));
        if let Some((row, value)) = wide {
            return refused(BadArgument::WideValue { row, value, most });
        }
        let mut column = vec![self.add_rows(rows_with(values, |_| true))?];
        for slice in 0..slices {
            column.push(self.add_rows(rows_with(values, |value| value >> slice & 1 == 1))?);
        }
        Ok(column)
    }

    /// The words of the index so far, checked.
    ///
    /// # Errors
    /// 3 for too many rows, or for too many words in all.
    pub fn build(&self) -> Result<Vec<u32>, Refusal> {
        let index = laid_out(self.format, self.rows, &self.bodies);
        check(&index)?;
        Ok(index)
    }

    fn push(&mut self, body: Vec<u32>) -> u32 {
        self.bodies.push(body);
        (self.bodies.len() - 1) as u32
    }

    /// Whether an index may have so many rows, and that many bitmaps more: asked of a head alone, before room for the
    /// rows is taken. That its contents are missing is told only where both are right.
    fn check_room(&self, more: usize) -> Result<(), Refusal> {
        let bitmaps = u32::try_from(self.bodies.len().saturating_add(more)).unwrap_or(u32::MAX);
        match check(&[self.format.index_kind(), self.rows, bitmaps]) {
            Err(refusal) if refusal.number == Refusal::TOO_LARGE => Err(refusal),
            _ => Ok(()),
        }
    }
}
