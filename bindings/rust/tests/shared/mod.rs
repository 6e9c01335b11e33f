//! What the tests of the calls share.

// each file of tests uses a part of it
#![allow(dead_code)]

use zvonurel::Refusal;

pub const LOOPED: [u32; 15] = [1, 4, 3, 9, 2, 11, 2, 13, 2, 0x20000, 0x3, 0x20000, 0xE, 0x20000, 0x8];
pub const UNTOUCHED: u32 = 0x7777_7777;

/// A refusal's number, bitmap and word.
pub type Numbers = (u32, u32, u64);

pub const BAD: Numbers = (Refusal::BAD_ARGUMENT, 0, 0);

pub fn no_room<T>(need: u64) -> Result<T, Numbers> {
    Err((Refusal::NO_ROOM, 0, need))
}

/// What a call told, a refusal by its three numbers.
pub fn told<T>(result: Result<T, Refusal>) -> Result<T, Numbers> {
    result.map_err(|refusal| refusal.numbers())
}

/// The call writes these words into a buffer of their length and one more, which it leaves; and it is refused with
/// their number, and changes nothing, where one word is missing.
pub fn writes(want: &[u32], call: impl Fn(&mut [u32]) -> Result<usize, Refusal>) {
    let mut out = vec![UNTOUCHED; want.len() + 1];
    assert_eq!(call(&mut out), Ok(want.len()));
    assert_eq!(&out[..want.len()], want);
    assert_eq!(out[want.len()], UNTOUCHED);
    if let Some(short) = want.len().checked_sub(1) {
        let mut out = vec![UNTOUCHED; short];
        assert_eq!(told(call(&mut out)), no_room(want.len() as u64));
        assert!(out.iter().all(|w| *w == UNTOUCHED));
    }
}

/// What a refusal 8 says of the argument.
pub fn said<T: std::fmt::Debug>(result: Result<T, Refusal>) -> String {
    let refusal = result.unwrap_err();
    assert_eq!(refusal.numbers(), BAD);
    let text = refusal.to_string();
    text.strip_prefix("a bad argument: ").and_then(|rest| rest.strip_suffix(" (refusal 8)")).unwrap().to_string()
}

/// The index with one of its words changed.
pub fn changed(place: usize, value: u32) -> [u32; 15] {
    let mut index = LOOPED;
    index[place] = value;
    index
}
