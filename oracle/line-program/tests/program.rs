//! How the program begins and ends.

use std::fs::File;
use std::fs::OpenOptions;
use std::io::Write;
use std::process::Command;
use std::process::Output;
use std::process::Stdio;

fn oracle() -> Command {
    Command::new(env!("CARGO_BIN_EXE_oracle"))
}

fn message(output: &Output) -> String {
    String::from_utf8_lossy(&output.stderr).into_owned()
}

#[test]
fn wrong_arguments_end_with_status_2() {
    let lists: [&[&str]; 3] = [&[], &["traiscript"], &["trailscript", "callscript"]];
    for list in lists {
        let output = oracle()
            .args(list)
            .stdin(Stdio::null())
            .output()
            .expect("the program runs");
        assert_eq!(output.status.code(), Some(2), "{list:?}");
        assert!(output.stdout.is_empty());
        assert!(message(&output).contains("usage:"));
    }
}

#[test]
fn an_input_that_cannot_be_read_is_told() {
    let folder = File::open(env!("CARGO_MANIFEST_DIR")).expect("the folder");
    let output = oracle()
        .arg("trailscript")
        .stdin(folder)
        .output()
        .expect("the program runs");
    assert_eq!(output.status.code(), Some(1));
    assert!(message(&output).starts_with("oracle: "));
}

#[test]
fn an_output_that_takes_nothing_ends_the_program() {
    let full = OpenOptions::new()
        .write(true)
        .open("/dev/full")
        .expect("a device that is full");
    let mut program = oracle()
        .arg("trailscript")
        .stdin(Stdio::piped())
        .stdout(full)
        .stderr(Stdio::piped())
        .spawn()
        .expect("the program runs");
    let mut input = program.stdin.take().expect("the input");
    while input.write_all(b"count\n").is_ok() {}
    let output = program.wait_with_output().expect("the program ends");
    assert_eq!(output.status.code(), Some(1));
    assert!(!message(&output).contains("panicked"));
}

#[test]
fn each_line_is_answered_before_the_next_is_waited_for() {
    use std::io::Read;

    let mut program = oracle()
        .arg("trailscript")
        .stdin(Stdio::piped())
        .stdout(Stdio::piped())
        .spawn()
        .expect("the program runs");
    let mut input = program.stdin.take().expect("the input");
    let mut output = program.stdout.take().expect("the output");
    for answer in [b"1\tok\t0\n", b"2\tok\t0\n"] {
        input.write_all(b"count\n").expect("the program reads");
        let mut read = [0; 7];
        output.read_exact(&mut read).expect("the program answers");
        assert_eq!(&read, answer);
    }
    drop(input);
    assert!(program.wait().expect("the program ends").success());
}
