//! The kinds of session, and the order in which a run makes them.

mod actions;
mod capacities;
mod damaged;
mod deep;
mod emptied;
mod ends;
mod exhaustive;
mod lists;
mod questions;
mod rooms;
mod small;

use crate::commands::Mode;
use crate::random::Random;
use crate::scribe::Scribe;
use crate::session::Session;
use crate::vocabulary::Vocabulary;

pub struct Kind {
    pub name: &'static str,
    pub about: &'static str,
    write: fn(&mut Scribe),
    only_in: Option<Mode>,
    /// How many of a round's sessions are of this kind.
    share: usize,
}

pub const KINDS: &[Kind] = &[
    kind(
        "small",
        "random lines on small domains with many holes",
        small::write,
        None,
        9,
    ),
    kind(
        "ends",
        "bounds and values at either end of i32",
        ends::write,
        None,
        5,
    ),
    kind(
        "damaged",
        "lines that cannot be read, between lines that can",
        damaged::write,
        None,
        4,
    ),
    kind(
        "emptied",
        "posts on emptied variables, and backs",
        emptied::write,
        None,
        3,
    ),
    kind(
        "lists",
        "value lists of every shape and length",
        lists::write,
        None,
        4,
    ),
    kind(
        "deep",
        "many open checkpoints and backs of every length",
        deep::write,
        None,
        2,
    ),
    kind(
        "questions",
        "every question at many positions and values",
        questions::write,
        None,
        2,
    ),
    kind(
        "rooms",
        "lent slices too short by one, exact and ample",
        rooms::write,
        Some(Mode::Callscript),
        3,
    ),
    kind(
        "capacities",
        "each capacity and one past it",
        capacities::write,
        None,
        3,
    ),
];

/// The name of the kind that is not drawn at random: every sequence of three posts.
pub const EXHAUSTIVE: &str = "exhaustive";

const fn kind(
    name: &'static str,
    about: &'static str,
    write: fn(&mut Scribe),
    only_in: Option<Mode>,
    share: usize,
) -> Kind {
    Kind {
        name,
        about,
        write,
        only_in,
        share,
    }
}

pub fn kind_named(name: &str) -> Option<&'static Kind> {
    KINDS.iter().find(|kind| kind.name == name)
}

impl Kind {
    pub fn is_in(&self, mode: Mode) -> bool {
        self.only_in.is_none_or(|only| only == mode)
    }
}

/// One round, with the kinds spread evenly, so that a short run meets each kind early.
fn round(mode: Mode) -> Vec<&'static Kind> {
    let kinds = || KINDS.iter().filter(|kind| kind.is_in(mode));
    let most = kinds().map(|kind| kind.share).max().unwrap_or(0);
    (0..most)
        .flat_map(|turn| kinds().filter(move |kind| turn * kind.share % most < kind.share))
        .collect()
}

/// The session with this number, made from the seed alone.
pub fn numbered(
    vocabulary: &Vocabulary,
    seed: u64,
    number: usize,
    only: Option<&'static Kind>,
) -> Session {
    let kind = only.unwrap_or_else(|| {
        let round = round(vocabulary.mode);
        round[number % round.len()]
    });
    let mut scribe = Scribe::new(vocabulary, Random::for_part(seed, number as u64));
    (kind.write)(&mut scribe);
    if scribe.random.chance(2) {
        scribe.drop_last_line_feed();
    }
    scribe.finish(kind.name)
}

pub fn exhaustive_count() -> usize {
    exhaustive::count()
}

pub fn exhaustive_sessions(vocabulary: &Vocabulary) -> impl Iterator<Item = Session> {
    exhaustive::sessions(vocabulary)
}

#[cfg(test)]
mod tests {
    use super::*;
    use crate::session::lines_of;

    const MODES: [Mode; 2] = [Mode::Trailscript, Mode::Callscript];

    /// The list of a port that has the changes and the looks but no question about a variable.
    const CHANGES_AND_LOOKS: &str = "fresh,state,var,list,post,open,back,synchronise,count,\
        get_checkpoint,num_domains,num_trail_entries,get_trail_entry";

    fn listed(list: &str) -> Vocabulary {
        Vocabulary::of_list(Mode::Callscript, list).unwrap()
    }

    fn vocabularies() -> [Vocabulary; 3] {
        let [trailscript, callscript] = MODES.map(Vocabulary::whole);
        [trailscript, callscript, listed(CHANGES_AND_LOOKS)]
    }

    /// The commands that the sessions name, and whether some lines name none.
    fn named(sessions: impl Iterator<Item = Session>) -> (Vec<&'static str>, bool) {
        let mut names = std::collections::BTreeSet::new();
        for session in sessions {
            let lines = lines_of(&session.bytes);
            names.extend(lines.into_iter().map(|line| {
                let command = Mode::Callscript.command_of_line(line);
                command.map_or("", |command| command.name)
            }));
        }
        let damaged = names.remove("");
        (names.into_iter().collect(), damaged)
    }

    #[test]
    fn every_listed_command_is_written_and_no_other() {
        let vocabulary = listed(CHANGES_AND_LOOKS);
        let drawn = (0..200).map(|number| numbered(&vocabulary, 1, number, None));
        let (names, damaged) = named(drawn);
        let mut wanted: Vec<&str> = CHANGES_AND_LOOKS.split(',').collect();
        wanted.sort();
        assert_eq!(names, wanted);
        assert!(damaged);
    }

    #[test]
    fn exhaustive_sessions_name_listed_commands_alone() {
        let vocabulary = listed("var,list,post,open,synchronise,get_holes");
        let (names, damaged) = named(exhaustive_sessions(&vocabulary).step_by(9));
        assert_eq!(
            names,
            ["get_holes", "list", "open", "post", "synchronise", "var"]
        );
        assert!(!damaged);
    }

    /// The commands that the kinds build their stores with, each alone and each missing, so that no
    /// kind counts on one that is not there.
    #[test]
    fn every_list_gives_sessions_that_end() {
        let all: Vec<&str> = Mode::Callscript
            .commands()
            .map(|command| command.name)
            .collect();
        for name in [
            "var",
            "list",
            "post",
            "open",
            "back",
            "synchronise",
            "fresh",
        ] {
            let others: Vec<&str> = all.iter().copied().filter(|&other| other != name).collect();
            for list in [name.to_string(), others.join(",")] {
                let vocabulary = listed(&list);
                let drawn = (0..35).map(|number| numbered(&vocabulary, 1, number, None));
                let (names, _) = named(drawn.chain(exhaustive_sessions(&vocabulary).take(1)));
                assert!(names.iter().all(|name| vocabulary.has(name)), "{list}");
            }
        }
    }

    #[test]
    fn the_same_seed_gives_the_same_bytes_and_another_gives_others() {
        for vocabulary in vocabularies() {
            let bytes = |seed, number| numbered(&vocabulary, seed, number, None).bytes;
            for number in 0..60 {
                assert_eq!(bytes(5, number), bytes(5, number));
            }
            assert_ne!(bytes(5, 0), bytes(6, 0));
        }
    }

    #[test]
    fn a_round_holds_each_kind_as_often_as_its_share() {
        for mode in MODES {
            for kind in KINDS.iter().filter(|kind| kind.is_in(mode)) {
                let found = round(mode)
                    .iter()
                    .filter(|other| other.name == kind.name)
                    .count();
                assert_eq!(found, kind.share, "{}", kind.name);
            }
        }
        assert!(
            round(Mode::Trailscript)
                .iter()
                .all(|kind| kind.name != "rooms")
        );
    }

    #[test]
    fn lines_on_both_sides_of_the_limit_are_written() {
        let whole = Vocabulary::whole(Mode::Trailscript);
        let mut lengths = std::collections::BTreeMap::new();
        for number in 0..200 {
            for kind in ["lists", "damaged"] {
                let session = numbered(&whole, 1, number, kind_named(kind));
                for line in lines_of(&session.bytes)
                    .iter()
                    .filter(|line| line.starts_with(b"list\t"))
                {
                    *lengths.entry(line.len()).or_insert(0) += 1;
                }
            }
        }
        for length in [199, 200, 201] {
            assert!(
                lengths.get(&length).is_some_and(|&count| count >= 10),
                "{length}: {:?}",
                lengths.get(&length)
            );
        }
    }

    type Test = fn(&[u8]) -> bool;

    /// The damages that a run must hold, each with a test for a line that has it.
    const DAMAGES: [(&str, Test); 17] = [
        ("an empty line", |line| line.is_empty()),
        ("a trailing tab", |line| line.ends_with(b"\t")),
        ("a leading tab", |line| line.starts_with(b"\t")),
        ("an empty field", |line| holds(line, b"\t\t")),
        ("a leading zero", |line| holds(line, b"\t01")),
        ("a minus zero", |line| holds(line, b"\t-0")),
        ("a plus", |line| holds(line, b"\t+1")),
        ("past i32", |line| holds(line, b"\t2147483648")),
        ("below i32", |line| holds(line, b"\t-2147483649")),
        ("past u32", |line| holds(line, b"\t4294967296")),
        ("many digits", |line| holds(line, &[b'9'; 80])),
        ("spaces for tabs", |line| line.starts_with(b"post ")),
        ("upper case", |line| line.starts_with(b"POST")),
        ("a NUL", |line| line.contains(&0)),
        ("a byte that is not ASCII", |line| line.contains(&0xff)),
        ("CRLF", |line| line.ends_with(b"\r")),
        ("a megabyte", |line| line.len() >= 1 << 20),
    ];

    fn holds(line: &[u8], part: &[u8]) -> bool {
        line.windows(part.len()).any(|window| window == part)
    }

    #[test]
    fn each_damage_is_met() {
        let whole = Vocabulary::whole(Mode::Trailscript);
        let damaged = |number| numbered(&whole, 1, number, kind_named("damaged"));
        let sessions: Vec<Session> = (0..300).map(damaged).collect();
        for (name, has_it) in DAMAGES {
            let met = |session: &Session| lines_of(&session.bytes).iter().any(|line| has_it(line));
            assert!(sessions.iter().any(met), "{name}");
        }
        assert!(sessions.iter().any(|session| session.bytes.is_empty()));
        let unended = |session: &Session| !session.bytes.ends_with(b"\n");
        assert!(sessions.iter().filter(|session| unended(session)).count() > 20);
    }
}
