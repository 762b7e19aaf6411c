//! Where the Rust stops. A stop is known by its place in the Rust, which the checksums hold fast.

use std::cell::Cell;
use std::panic;
use std::panic::AssertUnwindSafe;
use std::panic::PanicHookInfo;

use Unanswered::Refused;
use Unanswered::Stopped;

use crate::refusal::Refusal;

/// Why a call gave no answer.
#[derive(Clone, Copy, Debug, PartialEq, Eq)]
pub(crate) enum Unanswered {
    Refused(Refusal),
    Stopped(&'static str),
}

impl From<Refusal> for Unanswered {
    fn from(refusal: Refusal) -> Self {
        Unanswered::Refused(refusal)
    }
}

/// The one file of the Rust in which a call that the rules allow can stop.
const FILE: &str = "assignments.rs";

/// What a stop in a line of that file means. The names are those of docs/DIFFERENCES.md.
const LINES: [(u32, Unanswered); 8] = [
    (705, Stopped("not-equal-at-position-emptied-since")),
    (717, Stopped("equal-at-position-emptied-since")),
    (862, Refused(Refusal::NoReason)),
    (1107, Refused(Refusal::StepOverflow)),
    (1115, Refused(Refusal::StepOverflow)),
    (1351, Stopped("position-of-not-greatest-value")),
    (1359, Stopped("position-of-not-smallest-value")),
    (1457, ITERATOR_PAST_GREATEST_VALUE),
];

pub(crate) const ITERATOR_PAST_GREATEST_VALUE: Unanswered = Stopped("iterator-past-greatest-value");

pub(crate) const UNEXPLAINED: Unanswered = Stopped("unexplained");

thread_local! {
    static ATTEMPTING: Cell<bool> = const { Cell::new(false) };
    static MEANING: Cell<Unanswered> = const { Cell::new(UNEXPLAINED) };
}

/// From here on a stop within `attempt` is looked up instead of being printed.
pub(crate) fn watch() {
    let usual = panic::take_hook();
    panic::set_hook(Box::new(move |stop| {
        if ATTEMPTING.get() {
            MEANING.set(meaning(stop));
        } else {
            usual(stop);
        }
    }));
}

/// Makes a call of the Rust, which may stop.
pub(crate) fn attempt<T>(call: impl FnOnce() -> T) -> Result<T, Unanswered> {
    ATTEMPTING.set(true);
    let result = panic::catch_unwind(AssertUnwindSafe(call));
    ATTEMPTING.set(false);
    result.map_err(|_| MEANING.replace(UNEXPLAINED))
}

fn meaning(stop: &PanicHookInfo<'_>) -> Unanswered {
    let place = stop
        .location()
        .filter(|place| place.file().rsplit('/').next() == Some(FILE));
    let known = LINES
        .iter()
        .find(|(line, _)| place.is_some_and(|place| place.line() == *line));
    if let Some((_, meaning)) = known {
        return *meaning;
    }
    eprintln!("oracle: unexplained: {stop}");
    UNEXPLAINED
}

#[cfg(test)]
mod tests {
    use std::fs;

    use super::*;

    #[test]
    fn each_name_is_explained_and_shown() {
        let oracle = concat!(env!("CARGO_MANIFEST_DIR"), "/..");
        let page =
            fs::read_to_string(format!("{oracle}/../docs/DIFFERENCES.md")).expect("the page");
        for (_, meaning) in LINES {
            if let Stopped(name) = meaning {
                assert!(
                    page.contains(&format!("### stop `{name}`\n")),
                    "{name} is not explained"
                );
                let session = format!("{oracle}/stops/{name}.callscript.in");
                assert!(
                    fs::exists(session).is_ok_and(|there| there),
                    "{name} is not shown"
                );
            }
        }
    }
}
