//! Every sequence of three posts, four operators by seven values, on five small domains.
//!
//! A session holds the sequences that begin with one post. Each is undone before the next, so
//! undoing is tried too.

use crate::aiming::Aim;
use crate::commands::{Command, Part};
use crate::random::Random;
use crate::scribe::Scribe;
use crate::session::Session;
use crate::sketch::{HIGHEST, LOWEST, OPERATORS, Operator};
use crate::vocabulary::Vocabulary;

#[derive(Clone, Copy)]
struct Domain {
    create: fn(&mut Scribe),
    /// The value that stands where 1 does in the domain 1 to 3.
    first: i64,
}

const DOMAINS: [Domain; 5] = [
    Domain {
        create: |scribe| scribe.var(1, 3),
        first: 1,
    },
    Domain {
        create: one_to_four_without_two,
        first: 1,
    },
    Domain {
        create: |scribe| scribe.list(&[1, 4]),
        first: 1,
    },
    Domain {
        create: |scribe| scribe.var(LOWEST, LOWEST + 2),
        first: LOWEST,
    },
    Domain {
        create: |scribe| scribe.var(HIGHEST - 2, HIGHEST),
        first: HIGHEST - 2,
    },
];

fn one_to_four_without_two(scribe: &mut Scribe) {
    scribe.var(1, 4);
    scribe.post_plain(1, Operator::Not, 2);
}

type Predicate = (Operator, i64);

fn predicates(domain: Domain) -> Vec<Predicate> {
    let values = (domain.first - 2).max(LOWEST)..=(domain.first + 4).min(HIGHEST);
    OPERATORS
        .into_iter()
        .flat_map(|operator| values.clone().map(move |value| (operator, value)))
        .collect()
}

/// How many sessions hold every sequence: one for each first post.
pub fn count() -> usize {
    DOMAINS
        .into_iter()
        .map(|domain| predicates(domain).len())
        .sum()
}

pub fn sessions(vocabulary: &Vocabulary) -> impl Iterator<Item = Session> {
    DOMAINS.into_iter().flat_map(move |domain| {
        predicates(domain)
            .into_iter()
            .map(move |first| session(vocabulary, domain, first))
    })
}

fn session(vocabulary: &Vocabulary, domain: Domain, first: Predicate) -> Session {
    let mut scribe = Scribe::new(vocabulary, Random::from_seed(first.1 as u64));
    (domain.create)(&mut scribe);
    let predicates = predicates(domain);
    for second in &predicates {
        for third in &predicates {
            sequence(&mut scribe, [first, *second, *third]);
        }
    }
    scribe.finish(super::EXHAUSTIVE)
}

fn sequence(scribe: &mut Scribe, posts: [Predicate; 3]) {
    scribe.open();
    for (operator, value) in posts {
        scribe.post_plain(1, operator, value);
    }
    scribe.state();
    if !scribe.speaks("state") {
        scribe.show(1);
        scribe.line("count");
    }
    ask(scribe);
    scribe.back(0);
    scribe.state();
    if !scribe.speaks("state") {
        scribe.show(1);
    }
}

/// One question about now and one about a position; which ones are drawn, so that a session has
/// them all.
fn ask(scribe: &mut Scribe) {
    let aim = Aim {
        variable: 1,
        predicate: scribe.some_predicate(1),
    };
    scribe.ask(1, aim.predicate.0, aim.predicate.1);
    if let Some(command) = scribe.some_command(is_question_or_listing) {
        scribe.call(command, aim);
    }
}

fn is_question_or_listing(command: &Command) -> bool {
    matches!(command.part, Part::Question | Part::Listing)
}

#[cfg(test)]
mod tests {
    use super::*;
    use crate::commands::Mode;

    #[test]
    fn every_sequence_of_three_posts_is_there_once() {
        let mut sequences = std::collections::BTreeSet::new();
        let mut found = 0;
        for session in sessions(&Vocabulary::whole(Mode::Trailscript)) {
            found += 1;
            let text = String::from_utf8(session.bytes).unwrap();
            let head = text.split("open\n").next().unwrap().to_string();
            for sequence in text.split("open\n").skip(1) {
                let posts: String = sequence
                    .lines()
                    .filter(|line| line.starts_with("post"))
                    .collect();
                assert!(sequences.insert(head.clone() + &posts));
            }
        }
        assert_eq!(sequences.len(), 3 * 28usize.pow(3) + 2 * 20usize.pow(3));
        assert_eq!((found, count()), (3 * 28 + 2 * 20, 3 * 28 + 2 * 20));
    }
}
