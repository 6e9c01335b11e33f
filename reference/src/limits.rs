//! Every limit and size of the rules, once.

/// Rows of a bitmap, at most.
pub const MOST_ROWS: u32 = 1_073_741_824;
/// Bitmaps of an index, at most.
pub const MOST_BITMAPS: u32 = 256;
/// Words of an index, at most.
pub const MOST_INDEX_WORDS: usize = 67_108_864;
/// Numbers in a list, at most.
pub const MOST_NAMED: usize = 256;
/// Entries of a tally: 0 to `MOST_NAMED` holders.
pub const TALLY_ENTRIES: usize = MOST_NAMED + 1;

/// Numbers in a column's list, at least: existence and one slice.
pub const LEAST_COLUMN: usize = 2;
/// Numbers in the list of either of two columns, at most: existence and 32 slices.
pub const MOST_SUMMED: usize = 33;
/// Numbers in the list where only a value is asked, at most: a sum and a difference have one slice more.
pub const MOST_VALUED: usize = 34;

/// Word 0 of an index with EWAH bodies.
pub const EWAH_KIND: u32 = 1;
/// Word 0 of an index with WAH bodies.
pub const WAH_KIND: u32 = 2;
/// Words in front of the contents.
pub const HEAD_WORDS: usize = 3;
/// Words of an entry of the contents: start, length.
pub const ENTRY_WORDS: usize = 2;

/// Clean segments of a marker, at most. All ones in binary.
pub const MOST_CLEAN: usize = 65_535;
/// Dirty words of a marker, at most.
pub const MOST_DIRTY: usize = 32_767;
/// The lowest bit of a marker's clean count.
pub const CLEAN_SHIFT: u32 = 1;
/// The lowest bit of a marker's dirty count.
pub const DIRTY_SHIFT: u32 = 17;

/// Set in a WAH word that is a fill.
pub const FILL_FLAG: u32 = 1 << 31;
/// Set in a fill of ones.
pub const FILL_VALUE: u32 = 1 << 30;
/// Segments of a fill, at most. All ones in binary.
pub const MOST_FILL: u32 = FILL_VALUE - 1;

/// Bits of a word, rows of a plain word, rows of an EWAH segment.
pub const WORD_BITS: usize = 32;
/// Rows of a WAH segment.
pub const WAH_ROWS: usize = 31;
/// Bytes of a word.
pub const WORD_BYTES: usize = 4;

/// Bytes that the program reads, at most.
pub const PROGRAM_BYTES: usize = 65_536;
/// Words that the program has for its answer.
pub const PROGRAM_ROOM: usize = 16_384;
