//! The program's exact output.

mod common;
use common::*;
use reference::limits::*;
use reference::program;

fn prints(input: &[u8], text: &str) {
    assert_eq!(String::from_utf8(program(input)).unwrap(), text);
}

#[test]
fn looped() {
    prints(&input(2, &LOOPED), "rows 4\nnamed 3\nthreshold 2\nset 2\n1\n3\n");
    prints(&input(1, &LOOPED), "rows 4\nnamed 3\nthreshold 1\nset 4\n0\n1\n2\n3\n");
    prints(&input(3, &LOOPED), "rows 4\nnamed 3\nthreshold 3\nset 0\n");
}

#[test]
fn no_rows() {
    prints(&input(1, &index_of(0, &[&[]])), "rows 0\nnamed 1\nthreshold 1\nset 0\n");
}

/// A run of ones over pads has the real rows alone.
#[test]
fn no_pads() {
    for body in [&[2, 3][..], &[0x0002_0002, 0xF]] {
        prints(&input(1, &index_of(36, &[body])), "rows 36\nnamed 1\nthreshold 1\nset 4\n32\n33\n34\n35\n");
    }
}

#[test]
fn by_length_of_input() {
    prints(&[], "refused 1 0 0\n");
    prints(&[2, 0, 0], "refused 1 0 0\n");
    prints(&[2, 0, 0, 0, 1], "refused 1 0 0\n");
    prints(&input(2, &LOOPED)[..63], "refused 1 0 0\n");
    prints(&[0; PROGRAM_BYTES + 1], "refused 3 0 0\n");
    prints(&[0; PROGRAM_BYTES + WORD_BYTES], "refused 3 0 0\n");
    // The most that is read at all.
    prints(&[0; PROGRAM_BYTES], "refused 2 0 0\n");
}

#[test]
fn one_to_eight() {
    prints(&input(1, &[]), "refused 1 0 0\n");
    prints(&input(1, &[1, 4]), "refused 1 0 2\n");
    prints(&input(1, &[1, 4, 1, 5]), "refused 1 0 4\n");
    prints(&input(1, &[3, 4, 0]), "refused 2 0 0\n");
    prints(&input(1, &[1, MOST_ROWS + 1, 0]), "refused 3 0 1\n");
    prints(&input(1, &[1, 4, MOST_BITMAPS + 1]), "refused 3 0 2\n");
    prints(&input(1, &[1, 4, 1, 6, 0]), "refused 4 0 3\n");
    prints(&input(1, &[1, 32, 1, 5, 2, 2]), "refused 4 0 4\n");
    prints(&input(1, &[1, 32, 1, 5, 1, 2, 2]), "refused 4 0 6\n");
    prints(&input(1, &index_of(32, &[&[2], &[0x0002_0000]])), "refused 5 1 8\n");
    prints(&input(1, &index_of(32, &[&[2], &[4]])), "refused 6 1 8\n");
    prints(&input(1, &index_of(32, &[&[2], &[]])), "refused 6 1 8\n");
    prints(&input(1, &index_of(40, &[&[4], &[0x0002_0002, 0x100]])), "refused 7 1 9\n");
    prints(&input(0, &LOOPED), "refused 8 0 0\n");
    prints(&input(4, &LOOPED), "refused 8 0 0\n");
    prints(&input(1, &[1, 4, 0]), "refused 8 0 0\n");
    // The index is looked at before T.
    prints(&input(0, &[3, 4, 0]), "refused 2 0 0\n");
}

/// The largest answers an input can ask for still go into the buffer.
#[test]
fn widest_answer_fits() {
    // T, an index of one bitmap, and its one marker; the rest are dirty words.
    let dirty = PROGRAM_BYTES / WORD_BYTES - 1 - HEAD_WORDS - ENTRY_WORDS - 1;
    let mut body = vec![(dirty as u32) << DIRTY_SHIFT];
    body.extend(vec![1; dirty]);
    let index = index_of((WORD_BITS * dirty) as u32, &[&body]);
    let bytes = input(1, &index);
    assert_eq!(bytes.len(), PROGRAM_BYTES);
    let out = String::from_utf8(program(&bytes)).unwrap();
    let mut lines = out.lines();
    assert_eq!(lines.next(), Some("rows 524064"));
    assert_eq!(lines.nth(2), Some("set 16377"));
    assert_eq!(lines.clone().count(), 16_377);
    assert_eq!(lines.last(), Some("524032"));
}
