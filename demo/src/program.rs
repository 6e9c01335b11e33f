//! The program `threshold`, asked the same: what it lists is held to the drawn answer.

use std::ffi::OsStr;
use std::io::{Read, Write};
use std::path::Path;
use std::process::{ChildStdin, Command, Stdio};
use std::thread;

use crate::index::{told, Answer, Asked};
use crate::number::{count, grouped};

/// The most bytes that the program takes.
const MOST_BYTES: usize = 65_536;

/// One line that says what came of the comparison, or why nothing can be answered.
pub fn compare(program: &OsStr, asked: &Asked, answer: &Answer) -> Result<String, String> {
    let question: Vec<u8> = asked.for_program().map_err(told)?.into_iter().flat_map(u32::to_le_bytes).collect();
    if question.len() > MOST_BYTES {
        let (most, n) = (grouped(MOST_BYTES), grouped(question.len()));
        return Ok(format!("The program takes at most {most} bytes, and this question has {n}: not compared.\n"));
    }
    let rows: String = answer.rows.iter().map(|row| format!("{row}\n")).collect();
    let expected = asked.program_head(answer.rows.len()) + &rows;
    output(program, &question, expected.len()).and_then(|output| held_to(&output, &expected)).map_err(|why| {
        let program = Path::new(program).display();
        format!("{program}: the program does not bear the library out: {why}. Build both anew, with `build`.")
    })?;
    Ok(match answer.rows.len() {
        0 => "The program lists no half hour either.\n".to_string(),
        n => format!("The program lists the same {}.\n", count(n, "half hour")),
    })
}

/// What the program writes for a question, but no more than one byte past what it should write.
fn output(program: &OsStr, question: &[u8], should: usize) -> Result<String, String> {
    let mut child = Command::new(program)
        .stdin(Stdio::piped())
        .stdout(Stdio::piped())
        .spawn()
        .map_err(|why| format!("it can't be run ({why})"))?;
    let (input, output) = (child.stdin.take(), child.stdout.take().expect("it is piped"));
    let mut bytes = Vec::new();
    let read = thread::scope(|scope| {
        scope.spawn(|| feed(input, question));
        let read = output.take(should as u64 + 1).read_to_end(&mut bytes);
        if bytes.len() > should {
            // it may go on without end
            child.kill().ok();
        }
        read
    });
    let status = read.and_then(|_| child.wait()).map_err(|why| format!("it can't be heard ({why})"))?;
    if bytes.len() <= should && !status.success() {
        return Err(format!("it broke off ({status})"));
    }
    Ok(String::from_utf8_lossy(&bytes).into_owned())
}

/// A program that leaves its input unread shows by what it writes.
fn feed(input: Option<ChildStdin>, question: &[u8]) {
    if let Some(mut input) = input {
        input.write_all(question).ok();
    }
}

/// The program should write just these lines: four of the head, and one for each half hour.
fn held_to(output: &str, expected: &str) -> Result<(), String> {
    let mut should = expected.split_inclusive('\n');
    for (line, number) in output.split_inclusive('\n').zip(1..) {
        match should.next() {
            _ if number == 1 && line.starts_with("refused") => {
                return Err(format!("it says `{}`", line.trim_end().escape_debug()))
            }
            Some(right) if right == line => {}
            Some(right) => return Err(format!("its line {number} is {line:?} and should be {right:?}")),
            None => return Err(format!("it goes on behind line {}, its last", number - 1)),
        }
    }
    match should.count() {
        0 => Ok(()),
        missing => Err(format!(
            "its last {} not there",
            if missing == 1 { "line is".into() } else { format!("{missing} lines are") }
        )),
    }
}

#[cfg(test)]
mod tests {
    use super::*;

    #[test]
    fn the_first_line_that_is_another_is_told() {
        let right = "rows 4\nnamed 3\nthreshold 2\nset 2\n1\n3\n";
        assert_eq!(held_to(right, right), Ok(()));
        for (output, why) in [
            ("refused 8 0 0\n", "it says `refused 8 0 0`"),
            ("", "its last 6 lines are not there"),
            ("rows 4\nnamed 3\nthreshold 2\nset 2\n1\n", "its last line is not there"),
            ("rows 4\nnamed 3\nthreshold 2\nset 2\n1\n3", "its line 6 is \"3\" and should be \"3\\n\""),
            ("rows 4\nnamed 3\nthreshold 2\nset 2\n1\n2\n", "its line 6 is \"2\\n\" and should be \"3\\n\""),
            ("rows 4\nnamed 3\nthreshold 2\nset 3\n1\n3\n", "its line 4 is \"set 3\\n\" and should be \"set 2\\n\""),
            ("row 4\n", "its line 1 is \"row 4\\n\" and should be \"rows 4\\n\""),
            ("rows 4\nnamed 3\nthreshold 2\nset 2\n1\n3\n3\n", "it goes on behind line 6, its last"),
            ("rows 4\nnamed 3\nthreshold 2\nset 2\n1\n3\n\n", "it goes on behind line 6, its last"),
        ] {
            assert_eq!(held_to(output, right), Err(why.to_string()), "{output:?}");
        }
    }
}
