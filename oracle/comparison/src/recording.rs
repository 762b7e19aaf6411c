//! Sessions and answers on file: `NAME.MODE.in` is a session, `NAME.MODE.out` beside it what a
//! program answered.

use crate::commands::Mode;
use crate::report::write;
use std::fs;
use std::path::{Path, PathBuf};

/// Makes the folder for a recording. One that holds something is refused, as old sessions would
/// pass for new ones.
pub fn prepare(folder: &Path) -> Result<(), String> {
    fs::create_dir_all(folder)
        .map_err(|error| format!("cannot make {}: {error}", folder.display()))?;
    let mut inside = fs::read_dir(folder)
        .map_err(|error| format!("cannot read {}: {error}", folder.display()))?;
    if inside.next().is_some() {
        return Err(format!("{} is not empty", folder.display()));
    }
    Ok(())
}

pub fn write_session(
    folder: &Path,
    name: &str,
    session: &[u8],
    answers: Option<&[u8]>,
) -> Result<(), String> {
    write(&folder.join(format!("{name}.in")), session)?;
    match answers {
        Some(answers) => write(&folder.join(format!("{name}.out")), answers),
        None => Ok(()),
    }
}

pub struct Recorded {
    pub name: String,
    pub session: Vec<u8>,
    pub answers: Vec<u8>,
}

/// The sessions of a mode in a folder, in order. A folder without any is refused: it would compare
/// nothing.
pub fn recorded_sessions(folder: &Path, mode: Mode) -> Result<Vec<PathBuf>, String> {
    let inside = fs::read_dir(folder)
        .map_err(|error| format!("cannot read {}: {error}", folder.display()))?;
    let paths = inside.filter_map(|entry| entry.ok().map(|entry| entry.path()));
    let end = format!(".{}.in", mode.name());
    let mut sessions: Vec<PathBuf> = paths
        .filter(|path| path.to_string_lossy().ends_with(&end))
        .collect();
    sessions.sort();
    if sessions.is_empty() {
        return Err(format!(
            "no session of {} in {}",
            mode.name(),
            folder.display()
        ));
    }
    Ok(sessions)
}

pub fn read_recorded(session: &Path) -> Result<Recorded, String> {
    let read = |path: &Path| {
        fs::read(path).map_err(|error| format!("cannot read {}: {error}", path.display()))
    };
    let name = session
        .file_stem()
        .map_or(String::new(), |stem| stem.to_string_lossy().into_owned());
    Ok(Recorded {
        name,
        session: read(session)?,
        answers: read(&session.with_extension("out"))?,
    })
}

#[cfg(test)]
mod tests {
    use super::*;
    use crate::report::scratch_folder;

    #[test]
    fn what_was_written_is_read_back() {
        let folder = scratch_folder().unwrap();
        prepare(&folder).unwrap();
        assert!(recorded_sessions(&folder, Mode::Trailscript).is_err());
        write_session(&folder, "b.trailscript", b"open\n", Some(b"1\tok\t1\n")).unwrap();
        write_session(&folder, "a.trailscript", b"", None).unwrap();
        assert!(recorded_sessions(&folder, Mode::Callscript).is_err());
        let sessions = recorded_sessions(&folder, Mode::Trailscript).unwrap();
        assert!(read_recorded(&sessions[0]).is_err());
        let recorded = read_recorded(&sessions[1]).unwrap();
        assert_eq!(
            (recorded.name.as_str(), &recorded.session[..]),
            ("b.trailscript", &b"open\n"[..])
        );
        assert_eq!(recorded.answers, b"1\tok\t1\n");
        assert!(prepare(&folder).is_err());
        fs::remove_dir_all(folder).unwrap();
    }
}
