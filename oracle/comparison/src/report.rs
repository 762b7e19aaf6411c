//! Shows a difference so that it can be read, and keeps its session so that it can be run again.

use crate::differing::Difference;
use crate::program::Run;
use crate::session::lines_of;
use std::fmt::Write;
use std::fs;
use std::io::Write as _;
use std::path::{Path, PathBuf};
use std::time::{SystemTime, UNIX_EPOCH};

const SHOWN_BYTES: usize = 240;
const SHOWN_LINES: usize = 60;
const SHOWN_DIFFERING_LINES: usize = 5;

/// Prints to standard output. A reader that has gone away has seen enough, so that is no error.
pub fn say(text: &str) {
    let _ = std::io::stdout().write_all(text.as_bytes());
}

/// The bytes with escapes that `printf %b` reads back; a long line is cut.
pub fn escaped(bytes: &[u8]) -> String {
    let mut text = String::new();
    for &byte in bytes.iter().take(SHOWN_BYTES) {
        match byte {
            b'\t' => text.push_str("\\t"),
            b'\n' => text.push_str("\\n"),
            b'\r' => text.push_str("\\r"),
            b'\\' => text.push_str("\\\\"),
            b' '..=b'~' => text.push(byte as char),
            _ => {
                let _ = write!(text, "\\x{byte:02x}");
            }
        }
    }
    if bytes.len() > SHOWN_BYTES {
        let _ = write!(text, ".. ({} bytes)", bytes.len());
    }
    text
}

pub fn shown_session(session: &[u8]) -> String {
    let lines = lines_of(session);
    let mut text = String::new();
    for (number, line) in (1..).zip(&lines).take(SHOWN_LINES) {
        let _ = writeln!(text, "{number:>6}  {}", escaped(line));
    }
    if lines.len() > SHOWN_LINES {
        let _ = writeln!(
            text,
            "        .. and {} lines more",
            lines.len() - SHOWN_LINES
        );
    }
    if !session.is_empty() && !session.ends_with(b"\n") {
        text.push_str("        (the last line has no LF)\n");
    }
    text
}

/// What each program said where they part, or how each ended.
pub fn shown_difference(difference: &Difference, runs: &[Run], names: [&str; 2]) -> String {
    let mut text = String::new();
    match difference.line {
        Some(line) => {
            let _ = writeln!(text, "answers to line {line}:");
            let [first, second] = differing_lines(&difference.answers);
            let _ = write!(text, "  {}\n{first}  {}\n{second}", names[0], names[1]);
        }
        None => text.push_str("the answers are equal, the endings are not:\n"),
    }
    for (name, run) in names.iter().zip(runs) {
        if run.ending != crate::program::Ending::Status(0) {
            let _ = writeln!(text, "  {name}\n    {}", run.ending.describe());
            let complaint = lines_of(&run.complaint);
            complaint
                .iter()
                .take(SHOWN_DIFFERING_LINES)
                .for_each(|line| {
                    let _ = writeln!(text, "    it said: {}", escaped(line));
                });
        }
    }
    text
}

/// The lines of two answers from the first that differs on, so that a long state is not shown
/// whole.
fn differing_lines(answers: &[Vec<u8>; 2]) -> [String; 2] {
    let [first, second] = [lines_of(&answers[0]), lines_of(&answers[1])];
    let same = first
        .iter()
        .zip(&second)
        .take_while(|(one, other)| one == other)
        .count();
    [first, second].map(|lines| {
        let mut text = String::new();
        if lines.is_empty() {
            text.push_str("    (no answer)\n");
        } else if lines.len() <= same {
            text.push_str("    (nothing more)\n");
        }
        for (place, line) in lines
            .iter()
            .enumerate()
            .skip(same)
            .take(SHOWN_DIFFERING_LINES)
        {
            let within = if place > 0 {
                format!("(line {} of the answer) ", place + 1)
            } else {
                String::new()
            };
            let _ = writeln!(text, "    {within}{}", escaped(line));
        }
        text
    })
}

/// Writes a session and the answers to it into a new scratch folder, which stays for the reader.
pub fn keep(session: &[u8], runs: &[Run]) -> Result<PathBuf, String> {
    let folder = scratch_folder()?;
    write(&folder.join("session.in"), session)?;
    for (run, name) in runs.iter().zip(["first.out", "second.out"]) {
        write(&folder.join(name), &run.output)?;
    }
    Ok(folder)
}

pub fn write(path: &Path, bytes: &[u8]) -> Result<(), String> {
    fs::write(path, bytes).map_err(|error| format!("cannot write {}: {error}", path.display()))
}

/// A folder that nobody else has; its name is taken from the clock, and making it fails if it is
/// already there.
pub fn scratch_folder() -> Result<PathBuf, String> {
    for _ in 0..100 {
        let since = SystemTime::now()
            .duration_since(UNIX_EPOCH)
            .map_or(0, |passed| passed.as_nanos());
        let folder =
            std::env::temp_dir().join(format!("comparison-{}-{since}", std::process::id()));
        if fs::create_dir(&folder).is_ok() {
            return Ok(folder);
        }
    }
    Err(format!(
        "cannot make a scratch folder in {}",
        std::env::temp_dir().display()
    ))
}

#[cfg(test)]
mod tests {
    use super::*;

    #[test]
    fn every_byte_can_be_read() {
        assert_eq!(escaped(b"var\t1 \\\r\0\xff~"), "var\\t1 \\\\\\r\\x00\\xff~");
        assert!(escaped(&vec![b'a'; 1 << 20]).ends_with("a.. (1048576 bytes)"));
    }

    #[test]
    fn only_the_differing_lines_of_a_state_are_shown() {
        let answers = [
            b"2\tok\ncount\t1\nentry\t5\n".to_vec(),
            b"2\tok\ncount\t1\n".to_vec(),
        ];
        let [first, second] = differing_lines(&answers);
        assert_eq!(first, "    (line 3 of the answer) entry\\t5\n");
        assert_eq!(second, "    (nothing more)\n");
    }
}
