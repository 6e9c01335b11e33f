//! A plain second program for compressed bitmap indexes.
//!
//! Everything is worked out row by row, where neighbours that are alike go
//! together (`spans`). Nothing here is meant to be fast; it is meant to be easy
//! to hold against the rules, up to the most rows that they allow.

#![forbid(unsafe_code)]

mod append;
mod blocks;
mod body;
mod columns;
mod cuts;
mod ewah;
mod extents;
mod format;
mod index;
mod joins;
pub mod limits;
pub mod mistakes;
mod pairs;
mod program;
mod questions;
mod ranks;
mod refusal;
mod rewrite;
mod segment;
mod spans;
mod states;
mod traces;
mod wah;
mod widths;

pub use append::{append, begin, AppendState};
pub use body::{body_count, body_nth, body_pieces, body_row, check_body, compress, expand, Row};
pub use columns::{signed_value, value};
pub use format::Format;
pub use index::{bitmap, check, count, expand_bitmap, nth, pieces, row};
pub use mistakes::{with_mistake, Mistake};
pub use pairs::{difference_or_zero, signed_difference, smaller, sum};
pub use program::program;
pub use questions::{and, and_not, histogram, not, or, symmetric, threshold, xor, Answer};
pub use ranks::{largest, smallest};
pub use refusal::Refusal;
pub use rewrite::{rewrite, rewrite_bitmap, rewrite_index};
