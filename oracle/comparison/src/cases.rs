//! The sessions that a run compares on: drawn, exhaustive or from files.

use crate::arguments::{Only, Options};
use crate::kinds;
use crate::recording::{Recorded, read_recorded, recorded_sessions};
use crate::session::{Session, lines_of};

/// A session with its name, and the judge's answers where these are on file.
pub struct Case {
    pub kind: String,
    pub name: String,
    pub session: Vec<u8>,
    pub recorded: Option<Vec<u8>>,
}

impl Case {
    /// A session that is only run again, for which neither a kind nor a name is needed.
    pub fn again(session: &[u8]) -> Case {
        Case {
            kind: String::new(),
            name: String::new(),
            session: session.to_vec(),
            recorded: None,
        }
    }
}

type Cases<'a> = Box<dyn Iterator<Item = Result<Case, String>> + 'a>;

/// All sessions of the run, in order.
pub fn cases(options: &Options) -> Result<Cases<'_>, String> {
    if let Some(folder) = &options.recorded {
        let sessions = recorded_sessions(folder, options.mode)?;
        return Ok(Box::new(
            sessions
                .into_iter()
                .map(|path| read_recorded(&path).map(case_of_recorded)),
        ));
    }
    let exhaustive = options
        .exhaustive
        .then(|| kinds::exhaustive_sessions(&options.vocabulary))
        .into_iter()
        .flatten();
    let sessions = drawn_sessions(options).chain(exhaustive.map(Ok));
    Ok(Box::new(sessions.enumerate().map(|(number, session)| {
        session.map(|session| case_of_session(number, session))
    })))
}

/// A list of commands can leave nothing of a kind; without a complaint a run would go on for ever.
const SESSIONS_WITHOUT_A_LINE: usize = 1_000;

fn drawn_sessions(options: &Options) -> impl Iterator<Item = Result<Session, String>> + '_ {
    let (mut number, mut lines) = (0, 0);
    std::iter::from_fn(move || {
        let enough = lines >= options.lines && number >= options.sessions;
        if enough || matches!(options.only, Only::Exhaustive) {
            return None;
        }
        if lines == 0 && number >= SESSIONS_WITHOUT_A_LINE {
            return Some(Err("--commands leaves no line of the sessions".to_string()));
        }
        let session = kinds::numbered(&options.vocabulary, options.seed, number, options.kind());
        number += 1;
        lines += lines_of(&session.bytes).len();
        Some(Ok(session))
    })
}

fn case_of_session(number: usize, session: Session) -> Case {
    let name = format!("{number:06}-{}", session.kind);
    Case {
        kind: session.kind.to_string(),
        name,
        session: session.bytes,
        recorded: None,
    }
}

fn case_of_recorded(recorded: Recorded) -> Case {
    let kind = "recorded".to_string();
    Case {
        kind,
        name: recorded.name,
        session: recorded.session,
        recorded: Some(recorded.answers),
    }
}
