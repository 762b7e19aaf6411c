//! The whole command on toy programs, so that it is tried where no oracle is at hand.

use std::path::{Path, PathBuf};
use std::process::{Command, Output};
use std::time::Instant;

/// Answers ok to every line.
const AGREEABLE: &str = "awk '{ print NR \"\\tok\" }'";

/// Refuses every post of `ne`, and agrees otherwise.
const CONTRARY: &str =
    "awk '/^post.*ne/ { print NR \"\\trefused\\t7\"; next } { print NR \"\\tok\" }'";

/// Stops at every `show`.
const STOPPING: &str =
    "awk '/^show/ { print NR \"\\tstopped\\tat-a-show\"; next } { print NR \"\\tok\" }'";

/// A folder for one test, which also takes the scratch of the command; gone with its owner.
struct Folder(PathBuf);

impl Folder {
    fn new(test: &str) -> Folder {
        let folder =
            std::env::temp_dir().join(format!("comparison-test-{}-{test}", std::process::id()));
        std::fs::create_dir(&folder).unwrap();
        Folder(folder)
    }

    fn file(&self, name: &str, text: &str) -> String {
        let path = self.0.join(name);
        std::fs::write(&path, text).unwrap();
        path.to_str().unwrap().to_string()
    }

    fn comparison(&self, arguments: &[&str]) -> Output {
        let mut command = Command::new(env!("CARGO_BIN_EXE_comparison"));
        command
            .args(arguments)
            .env("TMPDIR", &self.0)
            .current_dir(&self.0)
            .output()
            .unwrap()
    }
}

impl Drop for Folder {
    fn drop(&mut self) {
        let _ = std::fs::remove_dir_all(&self.0);
    }
}

fn said(output: &Output) -> String {
    String::from_utf8_lossy(&output.stdout).into_owned() + &String::from_utf8_lossy(&output.stderr)
}

#[track_caller]
fn assert_ended(output: &Output, status: i32, wanted: &[&str]) {
    let text = said(output);
    assert_eq!(output.status.code(), Some(status), "{text}");
    for part in wanted {
        assert!(text.contains(part), "no {part:?} in:\n{text}");
    }
}

#[test]
fn equal_programs_are_equal() {
    let folder = Folder::new("equal");
    let output = folder.comparison(&[
        "--only", "small", "--lines", "2000", "--", AGREEABLE, AGREEABLE,
    ]);
    assert_ended(&output, 0, &["0 differences, 0 stops"]);
}

#[test]
fn a_difference_is_reduced_to_the_line_that_shows_it() {
    let folder = Folder::new("different");
    let output = folder.comparison(&[
        "--only", "small", "--lines", "2000", "--", AGREEABLE, CONTRARY,
    ]);
    assert_ended(
        &output,
        1,
        &[
            "reduced to 1 lines",
            "     1  post\\t0\\tne\\t0\\t",
            "1\\trefused\\t7",
            "1 differences",
        ],
    );
    let text = said(&output);
    let kept = text
        .lines()
        .find_map(|line| line.strip_prefix("kept in "))
        .unwrap();
    let session = std::fs::read(Path::new(kept).join("session.in")).unwrap();
    assert!(session.starts_with(b"post\t0\tne\t0\t"), "{session:?}");
}

#[test]
fn a_run_goes_on_past_a_difference_if_asked_to() {
    let folder = Folder::new("keep-going");
    let arguments = [
        "--only",
        "small",
        "--sessions",
        "5",
        "--keep-going",
        "--",
        AGREEABLE,
        CONTRARY,
    ];
    assert_ended(
        &folder.comparison(&arguments),
        1,
        &["5 sessions", "5 differences"],
    );
}

#[test]
fn a_stop_needs_an_explanation() {
    let folder = Folder::new("stops");
    let run = |page: &str| {
        let page = folder.file("page", page);
        folder.comparison(&[
            "--only",
            "small",
            "--sessions",
            "3",
            "--differences",
            &page,
            "--",
            STOPPING,
            AGREEABLE,
        ])
    };
    assert_ended(
        &run("here `at-a-show` is explained"),
        0,
        &["stopped at-a-show", "0 differences"],
    );
    assert_ended(
        &run("here nothing is explained"),
        1,
        &["the stop at-a-show is not explained", "0 differences"],
    );
}

#[test]
fn a_stop_of_the_second_program_is_a_difference() {
    let folder = Folder::new("second-stops");
    let arguments = [
        "--only",
        "small",
        "--sessions",
        "3",
        "--",
        AGREEABLE,
        STOPPING,
    ];
    assert_ended(
        &folder.comparison(&arguments),
        1,
        &["stopped\\tat-a-show", "1 differences"],
    );
}

#[test]
fn silence_and_a_bad_status_are_differences() {
    let folder = Folder::new("silent");
    let run = |program: &str| {
        folder.comparison(&[
            "--only",
            "small",
            "--sessions",
            "1",
            "--",
            AGREEABLE,
            program,
        ])
    };
    assert_ended(&run("true"), 1, &["(no answer)"]);
    let failing = "awk '{ print NR \"\\tok\" } END { exit 3 }'";
    assert_ended(&run(failing), 1, &["ended with status 3"]);
}

#[test]
fn a_hanging_program_is_a_difference_and_not_a_hang() {
    let folder = Folder::new("hanging");
    let begun = Instant::now();
    let arguments = [
        "--only",
        "small",
        "--session-seconds",
        "1",
        "--reduce-seconds",
        "1",
        "--",
    ];
    let output =
        folder.comparison(&[&arguments[..], &[AGREEABLE, "sh -c 'exec sleep 60'"]].concat());
    assert_ended(&output, 1, &["did not end within the time limit"]);
    assert!(begun.elapsed().as_secs() < 30);
}

#[test]
fn a_crash_and_a_missing_program_are_errors() {
    let folder = Folder::new("crash");
    let run = |program: &str| {
        folder.comparison(&[
            "--only",
            "small",
            "--sessions",
            "1",
            "--",
            AGREEABLE,
            program,
        ])
    };
    assert_ended(&run("sh -c 'kill -11 $$'"), 2, &["was ended by signal 11"]);
    assert_ended(&run("./not-there"), 2, &["cannot start ./not-there"]);
}

#[test]
fn bad_arguments_are_errors_and_help_is_not() {
    let folder = Folder::new("arguments");
    assert_ended(
        &folder.comparison(&["--frob"]),
        2,
        &["there is no option --frob"],
    );
    assert_ended(&folder.comparison(&[]), 2, &["no program is given"]);
    assert_ended(
        &folder.comparison(&["--commands", "post,frob", "a", "b"]),
        2,
        &["there is no command \"frob\""],
    );
    assert_ended(
        &folder.comparison(&["--differences", "nowhere", "a", "b"]),
        2,
        &["no file nowhere"],
    );
    assert_ended(
        &folder.comparison(&["--help"]),
        0,
        &["usage: comparison", "emptied", "exhaustive"],
    );
}

/// Refuses the lines of `show` that it can read, as a program does that has not got the command.
const WITHOUT_SHOW: &str =
    "awk '/^show/ { print NR \"\\trefused\\t14\"; next } { print NR \"\\tok\" }'";

#[test]
fn a_program_that_lacks_a_command_is_compared_on_the_others() {
    let folder = Folder::new("commands");
    let run = |list: &str| {
        folder.comparison(&[
            "--only",
            "small",
            "--lines",
            "2000",
            "--commands",
            list,
            "--",
            AGREEABLE,
            WITHOUT_SHOW,
        ])
    };
    assert_ended(&run("var,post,open,back,count"), 0, &["0 differences"]);
    assert_ended(&run("var,post,show"), 1, &["1 differences"]);
    assert_ended(&run("synchronise,var"), 0, &["0 differences"]);
}

#[test]
fn a_list_that_leaves_nothing_of_a_kind_is_an_error() {
    let folder = Folder::new("nothing-left");
    let arguments = [
        "--mode",
        "callscript",
        "--only",
        "rooms",
        "--commands",
        "ask",
    ];
    let output = folder.comparison(&[&arguments[..], &["--", AGREEABLE, AGREEABLE]].concat());
    assert_ended(&output, 2, &["--commands leaves no line"]);
}

#[test]
fn a_full_run_that_falls_short_fails() {
    let folder = Folder::new("full");
    let arguments = [
        "--full",
        "--no-exhaustive",
        "--lines",
        "500",
        "--sessions",
        "1",
        "--",
        AGREEABLE,
        AGREEABLE,
    ];
    assert_ended(
        &folder.comparison(&arguments),
        1,
        &["0 refusals 6, 100 wanted", "5,000 wanted"],
    );
}

#[test]
fn recorded_answers_stand_in_for_the_judge() {
    let folder = Folder::new("recorded");
    let arguments = [
        "--only",
        "small",
        "--sessions",
        "4",
        "--write",
        "answers",
        "--",
        AGREEABLE,
    ];
    assert_ended(&folder.comparison(&arguments), 0, &["4 sessions"]);
    assert_eq!(
        std::fs::read_dir(folder.0.join("answers")).unwrap().count(),
        8
    );
    assert_ended(
        &folder.comparison(&["--recorded", "answers", AGREEABLE]),
        0,
        &["4 sessions", "0 differences"],
    );
    assert_ended(
        &folder.comparison(&["--recorded", "answers", CONTRARY]),
        1,
        &["the answers on file"],
    );
    assert_ended(&folder.comparison(&arguments), 2, &["is not empty"]);
}
