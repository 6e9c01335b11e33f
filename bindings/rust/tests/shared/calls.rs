//! Every call on an index, of which none may answer where the index is wrong.

use crate::shared::UNTOUCHED;
use zvonurel::*;

/// What each question on the index is refused with. None of them changes its buffer.
pub fn refused_by_all(index: &[u32]) -> [Option<Refusal>; 26] {
    let (all, mut out) = ([0, 1, 2], [UNTOUCHED; HISTOGRAM_COUNTS]);
    let refused = [
        bitmap_refusal(index, 0),
        bitmap(index, 0).err(),
        row(index, 0, 0).err(),
        count(index, 0).err(),
        nth(index, 0, 0).err(),
        expand_bitmap(index, 0, &mut out).err(),
        bitmap_to_ewah(index, 0, &mut out).err(),
        bitmap_to_wah(index, 0, &mut out).err(),
        index_to_ewah(index, &mut out).err(),
        index_to_wah(index, &mut out).err(),
        and(index, 0, 1, &mut out).err(),
        or(index, 0, 1, &mut out).err(),
        xor(index, 0, 1, &mut out).err(),
        and_not(index, 0, 1, &mut out).err(),
        not(index, 0, &mut out).err(),
        threshold(index, &all, 2, &mut out).err(),
        symmetric(index, &all, &[0, 1, 0, 0], &mut out).err(),
        histogram(index, &all).err(),
        value(index, &all, 0).err(),
        signed_value(index, &all, 0).err(),
        sum(index, &all, &all, &mut out).err(),
        signed_difference(index, &all, &all, &mut out).err(),
        smaller(index, &all, &all, &mut out).err(),
        difference_or_zero(index, &all, &all, &mut out).err(),
        largest(index, &all, 1, &mut out).err(),
        smallest(index, &all, 1, &mut out).err(),
    ];
    assert_eq!(out, [UNTOUCHED; HISTOGRAM_COUNTS]);
    refused
}
