//! Runs the sessions that docs/DIFFERENCES.md shows.

use std::fs;
use std::io::Write;
use std::process::Command;
use std::process::Stdio;

fn answers(input: &str) -> String {
    let mut program = Command::new(env!("CARGO_BIN_EXE_oracle"))
        .arg("callscript")
        .stdin(Stdio::piped())
        .stdout(Stdio::piped())
        .spawn()
        .expect("the program runs");
    let mut lines = program.stdin.take().expect("the input");
    lines
        .write_all(input.as_bytes())
        .expect("the program reads");
    drop(lines);
    let output = program.wait_with_output().expect("the program ends");
    String::from_utf8(output.stdout).expect("plain answers")
}

/// The two columns of a session, with tabs where the page has bars.
fn columns(session: &str) -> (String, String) {
    let mut columns = (String::new(), String::new());
    for line in session.trim().lines() {
        let (input, answer) = line.split_once("  ").expect("a line and its answer");
        columns.0 += &format!("{input}\n").replace('|', "\t");
        columns.1 += &format!("{}\n", answer.trim()).replace('|', "\t");
    }
    columns
}

#[test]
#[cfg_attr(not(debug_assertions), ignore = "the timing profile does not stop")]
fn the_page_shows_what_the_oracle_answers() {
    let page = concat!(env!("CARGO_MANIFEST_DIR"), "/../../docs/DIFFERENCES.md");
    let page = fs::read_to_string(page).expect("the page");
    let sessions: Vec<_> = page.split("```").skip(1).step_by(2).collect();
    assert!(!sessions.is_empty());
    for session in sessions {
        let (input, expected) = columns(session);
        assert_eq!(answers(&input), expected, "{session}");
    }
}
