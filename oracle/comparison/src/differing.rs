//! Whether two runs of a session differ, and where first.

use crate::answers::{Answer, Said, answers_of};
use crate::program::{Ending, Run};
use crate::session::lines_of;

#[derive(Clone, PartialEq, Eq, Debug)]
pub struct Difference {
    /// The line of the session at which the answers part, counted from 1. None if only the endings
    /// differ.
    pub line: Option<usize>,
    pub answers: [Vec<u8>; 2],
    pub endings: [Ending; 2],
}

impl Difference {
    /// A crash is a fault of a program, not an answer that can be judged.
    pub fn is_crash(&self) -> bool {
        self.endings
            .iter()
            .any(|ending| matches!(ending, Ending::Signal(_)))
    }
}

/// The first difference between the judge's run and the other's, or none. Both must answer each
/// line once, under its own number, and end with status 0: two programs that are silent together
/// are not equal.
pub fn difference(session: &[u8], judge: &Run, other: &Run) -> Option<Difference> {
    let (judged, others) = (answers_of(&judge.output), answers_of(&other.output));
    let lines = lines_of(session).len();
    let longest = lines.max(judged.len()).max(others.len());
    let first = (0..longest)
        .find(|&place| place >= lines || !agree(place, judged.get(place), others.get(place)));
    let endings = [judge.ending, other.ending];
    if first.is_none() && endings == [Ending::Status(0); 2] {
        return None;
    }
    let shown = |answers: &[Answer]| {
        first
            .and_then(|place| answers.get(place))
            .map_or(Vec::new(), |it| it.bytes.to_vec())
    };
    Some(Difference {
        line: first.map(|place| place + 1),
        answers: [shown(&judged), shown(&others)],
        endings,
    })
}

/// Whether the answers to one line agree. Where the judge stopped, the other may say anything that
/// is one line.
fn agree(place: usize, judged: Option<&Answer>, other: Option<&Answer>) -> bool {
    let (Some(judged), Some(other)) = (judged, other) else {
        return false;
    };
    let number = Some(place as u64 + 1);
    if judged.number != number || other.number != number {
        return false;
    }
    let passed_over = matches!(judged.said(), Said::Stopped(_))
        && other.lines() == 1
        && other.bytes.ends_with(b"\n");
    passed_over || judged.bytes == other.bytes
}

#[cfg(test)]
mod tests {
    use super::*;

    fn run(output: &[u8]) -> Run {
        Run {
            output: output.to_vec(),
            ending: Ending::Status(0),
            complaint: Vec::new(),
        }
    }

    fn line_of_difference(session: &[u8], judge: &[u8], other: &[u8]) -> Option<usize> {
        difference(session, &run(judge), &run(other)).map(|found| found.line.unwrap())
    }

    #[test]
    fn equal_answers_do_not_differ() {
        let answers = b"1\tok\t1\n2\trefused\t7\n";
        assert_eq!(line_of_difference(b"a\nb\n", answers, answers), None);
        assert_eq!(line_of_difference(b"", b"", b""), None);
    }

    #[test]
    fn a_stop_of_the_judge_is_passed_over_if_the_other_says_one_line() {
        let judge = b"1\tstopped\tname\n2\tok\n";
        assert_eq!(
            line_of_difference(b"a\nb\n", judge, b"1\tok\ttrue\n2\tok\n"),
            None
        );
        assert_eq!(line_of_difference(b"a\nb\n", judge, judge), None);
        assert_eq!(
            line_of_difference(b"a\nb\n", judge, b"1\tok\nmore\n2\tok\n"),
            Some(1)
        );
        assert_eq!(line_of_difference(b"a\nb\n", judge, b"2\tok\n"), Some(1));
        assert_eq!(
            line_of_difference(b"a\nb\n", judge, b"1\tok\ttrue\n2\tok\t1\n"),
            Some(2)
        );
    }

    #[test]
    fn a_stop_of_the_other_is_a_difference() {
        assert_eq!(
            line_of_difference(b"a\n", b"1\tok\n", b"1\tstopped\tname\n"),
            Some(1)
        );
    }

    #[test]
    fn a_line_inside_a_state_differs_at_the_line_that_asked_for_it() {
        let judge = b"1\tok\n2\tok\nentry\t1\nentry\t2\n3\tok\n";
        let other = b"1\tok\n2\tok\nentry\t1\nentry\t3\n3\tok\n";
        assert_eq!(line_of_difference(b"a\nstate\nb\n", judge, other), Some(2));
        let short = b"1\tok\n2\tok\nentry\t1\n3\tok\n";
        assert_eq!(line_of_difference(b"a\nstate\nb\n", judge, short), Some(2));
    }

    #[test]
    fn missing_and_superfluous_lines_are_differences_even_if_both_programs_agree() {
        assert_eq!(
            line_of_difference(b"a\nb\n", b"1\tok\n2\tok\n", b"1\tok\n"),
            Some(2)
        );
        assert_eq!(line_of_difference(b"a\nb\n", b"", b""), Some(1));
        assert_eq!(
            line_of_difference(b"a\n", b"1\tok\n2\tok\n", b"1\tok\n2\tok\n"),
            Some(2)
        );
        assert_eq!(
            line_of_difference(b"a\nb\n", b"1\tok\n3\tok\n", b"1\tok\n3\tok\n"),
            Some(2)
        );
    }

    #[test]
    fn endings_are_compared() {
        let good = run(b"1\tok\n");
        let failed = Run {
            ending: Ending::Status(1),
            ..run(b"1\tok\n")
        };
        let crashed = Run {
            ending: Ending::Signal(6),
            ..run(b"1\tok\n")
        };
        assert!(difference(b"a\n", &good, &good).is_none());
        assert!(!difference(b"a\n", &good, &failed).unwrap().is_crash());
        assert!(difference(b"a\n", &failed, &failed).is_some());
        assert!(difference(b"a\n", &good, &crashed).unwrap().is_crash());
    }
}
