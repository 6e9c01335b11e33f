//! The writes by which the program gives its output, one by one: who reads a pipe may see the one and not yet the next.

use std::io::Write;
use std::os::fd::OwnedFd;
use std::os::unix::net::UnixDatagram;
use std::process::{Command, Stdio};
use std::thread::sleep;
use std::time::Duration;

/// The bytes of a chunk of the listing that was full: no line was begun with fewer than 21 bytes of 64 KiB left, and one
/// has 11 at most.
const FULL_CHUNK: std::ops::RangeInclusive<usize> = 65_516..=65_526;

/// Each write of the program for this input. Its output is a socket of datagrams, where a write is a message.
pub fn writes(program: &str, input: &[u8]) -> Vec<Vec<u8>> {
    let (ours, its) = UnixDatagram::pair().expect("two sockets");
    ours.set_nonblocking(true).expect("a socket that does not wait");
    let mut child = Command::new(program)
        .stdin(Stdio::piped())
        .stdout(Stdio::from(OwnedFd::from(its)))
        .spawn()
        .expect("the program starts");
    // Input that it leaves unread is no fault.
    child.stdin.take().expect("it has an input").write_all(input).ok();
    let mut buffer = vec![0; 1 << 17];
    let mut parts = Vec::new();
    loop {
        // Asked before what there is to read: once it has ended, that is all.
        let ended = child.try_wait().expect("its status").is_some();
        while let Ok(n) = ours.recv(&mut buffer) {
            parts.push(buffer[..n].to_vec());
        }
        if ended {
            return parts;
        }
        sleep(Duration::from_micros(100));
    }
}

/// Whether the four lines of a head, or the line of a refusal, are one write, and the others chunks of whole lines, each
/// full but the last.
pub fn are_whole(writes: &[Vec<u8>]) -> bool {
    let Some((first, chunks)) = writes.split_first() else {
        return false;
    };
    let lines = if first.starts_with(b"refused ") { 1 } else { 4 };
    first.iter().filter(|byte| **byte == b'\n').count() == lines
        && writes.iter().all(|part| part.ends_with(b"\n"))
        && chunks.iter().rev().skip(1).all(|chunk| FULL_CHUNK.contains(&chunk.len()))
}
