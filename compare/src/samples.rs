//! What the fixed cases are made of, in each format.

use zvonurel::Format::{self, Ewah, Wah};

pub struct Samples {
    pub format: Format,
    /// The example called LOOPED: 4 rows, three bitmaps.
    pub looped: &'static [u32],
    /// Bodies of 40 rows, sound and otherwise. The first one has rows 0 and 39.
    pub bodies: &'static [&'static [u32]],
    /// Bitmaps of 40 rows that columns are made of. Some have the same rows, spelt in another way.
    pub slices: [&'static [u32]; SLICES],
    /// All of 33 rows, and none.
    pub of_33: [&'static [u32]; 2],
    /// Sound bodies of no rows.
    pub no_rows: &'static [&'static [u32]],
}

pub const SLICES: usize = 12;

pub const LOOPED: [u32; 15] = [1, 4, 3, 9, 2, 11, 2, 13, 2, 0x20000, 0x3, 0x20000, 0xE, 0x20000, 0x8];
pub const LOOPED_WAH: [u32; 12] = [2, 4, 3, 9, 1, 10, 1, 11, 1, 0x3, 0xE, 0x8];

pub const SAMPLES: [Samples; 2] = [
    Samples {
        format: Ewah,
        looped: &LOOPED,
        bodies: &EWAH_BODIES,
        slices: EWAH_SLICES,
        of_33: [&[0x0002_0003, 1], &[0x0000_0004]],
        no_rows: &[&[], &[0], &[1, 0]],
    },
    Samples {
        format: Wah,
        looped: &LOOPED_WAH,
        bodies: &WAH_BODIES,
        slices: WAH_SLICES,
        of_33: [&[0x7FFF_FFFF, 0x3], &[0x8000_0002]],
        no_rows: &[&[]],
    },
];

const EWAH_BODIES: [&[u32]; 13] = [
    &[0x0004_0000, 0x1, 0x80],    // rows 0 and 39
    &[0x0000_0005],               // all rows
    &[0x0002_0003, 0xFF],         // all rows, the last by a dirty word
    &[0x0000_0004],               // none
    &[0x1, 0x0004_0000, 0, 0, 0], // idle and clean dirty words
    &[0x0006_0000, 0x1, 0x80],    // 5
    &[0xFFFE_0000, 0x1],          // 5 and 6
    &[0x0002_0004, 0x1],          // 6 at a marker
    &[0x0004_0000, 0x1, 0x80, 2], // 6 at a later marker
    &[0x0002_0000, 0x1],          // 6 at the end
    &[0x0000_0007],               // 6, a run of ones one segment too long
    &[0x0004_0000, 0x1, 0x100],   // 7
    &[0x0002_0003, 0x8000_0000],  // 7 after ones
];

const WAH_BODIES: [&[u32]; 22] = [
    &[0x0000_0001, 0x100],             // rows 0 and 39
    &[0xC000_0002],                    // all rows
    &[0x7FFF_FFFF, 0x1FF],             // all rows, by literals
    &[0xC000_0001, 0xC000_0001],       // all rows, equal fills
    &[0x8000_0002],                    // none
    &[0, 0],                           // none, clean literals
    &[0x8000_0001, 0],                 // none, a fill of one
    &[0, 0x100],                       // row 39
    &[0x8000_0000],                    // 10
    &[0x8000_0000, 0x8000_0002],       // 10 before a sound body
    &[0x8000_0002, 0x8000_0000],       // 10 with no segment left
    &[0x0000_0001, 0xC000_0000, 0x80], // 10 between
    &[0x8000_0000, 0x8000_0003],       // 10 before 6
    &[0x8000_0003],                    // 6, a fill one segment too long
    &[0xFFFF_FFFF],                    // 6, the longest fill
    &[0x8001_0002],                    // 6, a fill longer than a marker's run
    &[0x8000_0002, 0],                 // 6, a literal behind the end
    &[0, 0xC000_0002],                 // 6 at a later fill
    &[0x0000_0001],                    // 6 at the end
    &[],                               // 6 at the end, no word
    &[0, 0x7FFF_FFFF],                 // 7, ones
    &[0x0000_0001, 0x200],             // 7, the first pad
];

const EWAH_SLICES: [&[u32]; SLICES] = [
    &[0x0000_0004],                       // none
    &[0x0002_0003, 0xFF],                 // all, the last by a dirty word
    &[0x0000_0003, 0x2],                  // 0 to 31
    &[0x0002_0002, 0xFF],                 // 32 to 39
    &[0x0002_0002, 0x80],                 // 39, beside the pads
    &[0x0004_0000, 0x8, 0x8],             // 3 and 35
    &[0x0002_0000, 0x80, 0x2],            // 7
    &[0x0004_0000, 0, 0],                 // none, clean dirty words
    &[1, 0x0004_0000, u32::MAX, 0xFF, 0], // all, a clean dirty word and idle markers
    &[0, 3, 0, 0x0002_0001, 0, 1],        // 0 to 31, the same
    &[0x0000_0005],                       // all, as a run
    &[0x0000_0002, 0x3],                  // 32 to 39, as a run
];

/// The same, but that the first segment is rows 0 to 30.
const WAH_SLICES: [&[u32]; SLICES] = [
    &[0x8000_0002],              // none
    &[0x7FFF_FFFF, 0x1FF],       // all, by literals
    &[0xC000_0001, 0x8000_0001], // 0 to 30
    &[0, 0x1FF],                 // 31 to 39
    &[0, 0x100],                 // 39, beside the pads
    &[0x8, 0x10],                // 3 and 35
    &[0x80, 0],                  // 7
    &[0, 0],                     // none, clean literals
    &[0xC000_0001, 0x1FF],       // all, a fill and a literal
    &[0x7FFF_FFFF, 0x8000_0001], // 0 to 30, a literal and a fill
    &[0xC000_0002],              // all, as a fill
    &[0x8000_0001, 0xC000_0001], // 31 to 39, as a fill
];
