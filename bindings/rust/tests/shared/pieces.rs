//! The pieces of a body, by asking about its rows.

use zvonurel::{Refusal, Row};

/// The first and the last row of each piece, from row 0 on and always to the row behind the piece. Asked at its last
/// row, and at one between, a piece is the same.
pub fn met(rows: u32, ask: impl Fn(u32) -> Result<Row, Refusal>) -> Vec<(u32, u32)> {
    let (mut pieces, mut next) = (Vec::new(), 0);
    while next < rows {
        let Row { first, last, .. } = ask(next).unwrap();
        assert!(first == next && (next..rows).contains(&last), "from {first} to {last} at row {next} of {rows}");
        for row in [first.midpoint(last), last] {
            let asked = ask(row).unwrap();
            assert_eq!((asked.first, asked.last), (first, last));
        }
        pieces.push((first, last));
        next = last + 1;
    }
    pieces
}
