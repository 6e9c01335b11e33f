//! `body_count` with the bits of each dirty word tested one by one. It is proved to the contract of the library's.

/// What it returns, as `zv_body_count` does.
#[repr(C)]
struct Number {
    number: u32,
    bitmap: u32,
    word: u64,
    value: u32,
}

extern "C" {
    fn zv_body_count_bitwise(body: *const u32, body_words: usize, rows: u32) -> Number;
}

/// How many rows of this sound body are set.
pub fn body_count_bitwise(body: &[u32], rows: u32) -> u32 {
    // SAFETY: the pointer and the length are of one slice, and nothing is written.
    let told = unsafe { zv_body_count_bitwise(body.as_ptr(), body.len(), rows) };
    assert!((told.number, told.bitmap, told.word) == (0, 0, 0), "a sound body");
    told.value
}
