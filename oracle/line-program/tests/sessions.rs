//! Runs the recorded sessions through the program.

use std::fs;
use std::fs::File;
use std::path::Path;
use std::process::Command;

/// A session `NAME.MODE.in` is answered by `NAME.MODE.out`.
fn run_all(folder: &str) {
    let folder = Path::new(env!("CARGO_MANIFEST_DIR"))
        .join("..")
        .join(folder);
    let mut sessions = 0;
    for file in fs::read_dir(&folder).expect("the folder of sessions") {
        let input = file.expect("a file of the folder").path();
        if input.extension().is_none_or(|extension| extension != "in") {
            continue;
        }
        let stem = input
            .file_stem()
            .and_then(|stem| stem.to_str())
            .expect("a plain name");
        let (_, mode) = stem.rsplit_once('.').expect("a name that ends in the mode");
        let ran = Command::new(env!("CARGO_BIN_EXE_oracle"))
            .arg(mode)
            .stdin(File::open(&input).expect("the session"))
            .output()
            .expect("the program runs");
        let expected = fs::read(input.with_extension("out")).expect("the answers");
        assert!(ran.status.success(), "{stem}");
        assert_eq!(
            String::from_utf8(ran.stdout),
            String::from_utf8(expected),
            "{stem}"
        );
        sessions += 1;
    }
    assert!(sessions > 0);
}

#[test]
fn sessions_are_answered_as_recorded() {
    run_all("sessions");
}

#[test]
#[cfg_attr(not(debug_assertions), ignore = "the timing profile does not stop")]
fn stops_are_named_as_recorded() {
    run_all("stops");
}
