//! The question on colours to the library.

use zvonurel::{Format, IndexBuilder, Refusal, Spell};

use crate::colour::Colour;
use crate::log::Log;

/// An index as `bitmaps` makes it, and a list of those that are asked. A letter is one colour, so the bitmaps of a tank
/// never overlap: in a half hour as many of the list are set as tanks have one of the colours.
pub struct Asked {
    format: Format,
    rows: u32,
    pub index: Vec<u32>,
    list: Vec<u32>,
    t: u32,
}

/// A refusal of the library, which no log that was read should bring about.
pub fn told(refusal: Refusal) -> String {
    format!("The library refused: {refusal}.")
}

/// The half hours at which at least T tanks had one of the colours, one by one and in spells.
pub struct Answer {
    pub rows: Vec<u32>,
    pub spells: Vec<Spell>,
}

/// The words of an index with a bitmap for each tank and colour: all colours of the first tank, then of the second.
pub fn bitmaps(log: &Log<Colour>, format: Format) -> Result<Vec<u32>, Refusal> {
    // no more than a log may have
    let rows = log.span().rows as u32;
    let mut builder = IndexBuilder::with_format(rows, format);
    for (tank, colour) in log.tanks.iter().flat_map(|tank| Colour::ALL.map(|colour| (tank, colour))) {
        let held = (0..rows).zip(&tank.entries).filter(|(_, letter)| **letter == colour);
        builder.add_rows(held.map(|(row, _)| row))?;
    }
    builder.build()
}

/// The place of the tank whose bitmap this is, and the colour.
pub fn tank_and_colour(bitmap: u32) -> (usize, Colour) {
    let (bitmap, colours) = (bitmap as usize, Colour::ALL.len());
    (bitmap / colours, Colour::ALL[bitmap % colours])
}

/// The number of the bitmap of a tank's place and a colour.
pub fn bitmap_of(tank: usize, colour: Colour) -> u32 {
    (tank * Colour::ALL.len() + colour as usize) as u32
}

impl Asked {
    /// A sound index in this format, with its bitmaps in that order.
    pub fn new(format: Format, index: Vec<u32>, colours: &[Colour], t: usize) -> Asked {
        let (rows, bitmaps) = (index[1], index[2]);
        let list = (0..bitmaps).filter(|bitmap| colours.contains(&tank_and_colour(*bitmap).1)).collect();
        // T is no more than the tanks
        Asked { format, rows, index, list, t: t as u32 }
    }

    pub fn answer(&self) -> Result<Answer, Refusal> {
        let mut out = vec![0; self.format.most_body_words(self.rows)];
        let answer = zvonurel::threshold(&self.index, &self.list, self.t, &mut out)?;
        let (body, rows) = (&out[..answer.words], self.rows);
        let (rows, spells) = match self.format {
            Format::Ewah => (zvonurel::set_rows(body, rows)?, zvonurel::spells(body, rows)?),
            Format::Wah => (zvonurel::wah::set_rows(body, rows)?, zvonurel::wah::spells(body, rows)?),
        };
        Ok(Answer { rows: rows.collect(), spells: spells.collect() })
    }

    /// The question as the program `threshold` reads it: T and an index of the listed bitmaps alone, since the program
    /// names every bitmap of its index.
    pub fn for_program(&self) -> Result<Vec<u32>, Refusal> {
        let mut builder = IndexBuilder::with_format(self.rows, self.format);
        for bitmap in &self.list {
            builder.add_body(zvonurel::bitmap(&self.index, *bitmap)?)?;
        }
        Ok([vec![self.t], builder.build()?].concat())
    }

    /// The lines that the program begins an answer of so many rows with.
    pub fn program_head(&self, set: usize) -> String {
        format!("rows {}\nnamed {}\nthreshold {}\nset {set}\n", self.rows, self.list.len(), self.t)
    }
}

#[cfg(test)]
mod tests {
    use super::*;
    use crate::log::Entry;

    #[test]
    fn every_tank_and_colour_has_its_bitmap() {
        for bitmap in 0..(Colour::MOST_TANKS * Colour::ALL.len()) as u32 {
            let (tank, colour) = tank_and_colour(bitmap);
            assert_eq!(bitmap_of(tank, colour), bitmap);
        }
        assert_eq!(tank_and_colour(4), (1, Colour::Amber));
    }
}
