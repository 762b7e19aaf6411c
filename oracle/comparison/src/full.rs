//! What a full run must have met. A comparison that never asked proves nothing, so falling short is
//! a failure.

use crate::commands::{Command, Mode};
use crate::counting::{Counts, REFUSALS, grouped};
use crate::kinds::{EXHAUSTIVE, exhaustive_count};
use crate::vocabulary::Vocabulary;
use std::fmt::Write;

pub const LINES: usize = 2_000_000;
pub const SESSIONS: usize = 5_000;
const EACH_REFUSAL: usize = 1_000;
const STEP_OVERFLOWS: usize = 100;
const EACH_COMMAND: usize = 1_000;
const STEP_OVERFLOW: usize = 6;
const BAD_LINE: usize = 14;

/// A count that a full run must reach.
#[derive(Clone)]
struct Wanted {
    what: String,
    found: usize,
    least: usize,
}

/// A complaint for each count that was not reached.
pub fn shortfalls(counts: &Counts, vocabulary: &Vocabulary) -> Vec<String> {
    let wanted = [
        lengths(counts),
        refusals(counts, vocabulary),
        commands(counts, vocabulary),
    ]
    .concat();
    let short = wanted.iter().filter(|wanted| wanted.found < wanted.least);
    let complaint = |short: &Wanted| {
        format!(
            "{} {}, {} wanted",
            grouped(short.found),
            short.what,
            grouped(short.least)
        )
    };
    short.map(complaint).collect()
}

/// Exhaustive sessions come on top, so they are not among the sessions and lines that are wanted.
fn lengths(counts: &Counts) -> Vec<Wanted> {
    let (sessions, lines) = counts.kinds.get(EXHAUSTIVE).copied().unwrap_or_default();
    vec![
        wanted("sessions", counts.sessions() - sessions, SESSIONS),
        wanted("lines", counts.lines() - lines, LINES),
        wanted("exhaustive sessions", sessions, exhaustive_count()),
        wanted("answers of ok", counts.all.ok, counts.lines().div_ceil(2)),
    ]
}

fn refusals(counts: &Counts, vocabulary: &Vocabulary) -> Vec<Wanted> {
    let given = |number| givers(vocabulary, number).next().is_some();
    let numbers = (1..=REFUSALS.len()).filter(|&number| number == BAD_LINE || given(number));
    let least = |number| {
        if number == STEP_OVERFLOW {
            STEP_OVERFLOWS
        } else {
            EACH_REFUSAL
        }
    };
    numbers
        .map(|number| {
            wanted(
                &format!("refusals {number}"),
                counts.refused[number],
                least(number),
            )
        })
        .collect()
}

/// The listed commands that can give a refusal.
fn givers(vocabulary: &Vocabulary, number: usize) -> impl Iterator<Item = &'static Command> + '_ {
    vocabulary
        .commands()
        .filter(move |command| command.refusals().contains(&number))
}

/// For each refusal the commands that can give it, for the help text.
pub fn about_refusals() -> String {
    let whole = Vocabulary::whole(Mode::Callscript);
    let mut text = String::new();
    for number in 1..=REFUSALS.len() {
        let names: Vec<&str> = givers(&whole, number).map(|command| command.name).collect();
        let about = match number {
            BAD_LINE => "any list, as damaged lines stay".to_string(),
            // The names would fill the page.
            1 => "every command that takes a variable's number".to_string(),
            10 => "synchronise and every listing".to_string(),
            _ => names.join(", "),
        };
        let _ = writeln!(text, "  {number:>2}  {about}");
    }
    text
}

fn commands(counts: &Counts, vocabulary: &Vocabulary) -> Vec<Wanted> {
    let taken = |name| counts.commands.get(name).map_or(0, |answered| answered.ok);
    let line = |name| {
        wanted(
            &format!("answers of ok to {name}"),
            taken(name),
            EACH_COMMAND,
        )
    };
    vocabulary
        .commands()
        .map(|command| line(command.name))
        .collect()
}

fn wanted(what: &str, found: usize, least: usize) -> Wanted {
    Wanted {
        what: what.to_string(),
        found,
        least,
    }
}

#[cfg(test)]
mod tests {
    use super::*;

    #[test]
    fn an_empty_run_falls_short_of_everything() {
        let in_trailscript = shortfalls(&Counts::default(), &Vocabulary::whole(Mode::Trailscript));
        let in_callscript = shortfalls(&Counts::default(), &Vocabulary::whole(Mode::Callscript));
        assert!(
            in_trailscript
                .iter()
                .any(|text| text == "0 refusals 6, 100 wanted"),
            "{in_trailscript:?}"
        );
        assert!(
            in_trailscript
                .iter()
                .all(|text| !text.contains("refusals 10"))
        );
        for short in [
            "0 lines, 2,000,000 wanted",
            "0 sessions, 5,000 wanted",
            "0 exhaustive sessions, 124 wanted",
        ] {
            assert!(in_trailscript.iter().any(|text| text == short), "{short}");
        }
        for number in [1, 2, 3, 4, 5, 7, 8, 9, 14] {
            let short = format!("0 refusals {number}, 1,000 wanted");
            assert!(in_trailscript.contains(&short), "{short}");
        }
        assert!(
            in_callscript
                .iter()
                .any(|text| text == "0 refusals 10, 1,000 wanted")
        );
    }

    #[test]
    fn only_what_listed_commands_can_give_is_wanted() {
        let list = "var,post,open,state,get_trail_entry";
        let vocabulary = Vocabulary::of_list(Mode::Callscript, list).unwrap();
        let short = shortfalls(&Counts::default(), &vocabulary).join("\n");
        for number in [1, 2, 3, 4, 5, 6, 7, 8, 11, 14] {
            assert!(short.contains(&format!("refusals {number},")), "{number}");
        }
        for number in [9, 10, 12, 13] {
            assert!(!short.contains(&format!("refusals {number},")), "{number}");
        }
        assert_eq!(short.matches("answers of ok to").count(), 5);
    }

    #[test]
    fn half_of_the_lines_must_be_taken() {
        let mut counts = Counts::default();
        counts.add_session("small", 3);
        counts.add_answers(
            Mode::Trailscript,
            "small 0",
            b"count\ncount\n\n",
            b"1\tok\t0\n2\tok\t0\n3\trefused\t14\n",
        );
        assert!(
            shortfalls(&counts, &Vocabulary::whole(Mode::Trailscript))
                .iter()
                .all(|text| !text.ends_with("answers of ok, 2 wanted"))
        );
        counts.add_session("small", 5);
        assert!(
            shortfalls(&counts, &Vocabulary::whole(Mode::Trailscript))
                .contains(&"2 answers of ok, 4 wanted".to_string())
        );
    }
}
