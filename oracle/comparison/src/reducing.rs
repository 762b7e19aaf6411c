//! Makes a session that shows a difference as small as it can within a time limit.

use crate::commands::{Command, Field, Mode};
use std::time::Instant;

/// The lines of a session, each with its LF if it had one.
type Lines = Vec<Vec<u8>>;

/// How many entries a dropped line may have made: none, that of a post, those of a variable.
const ENTRIES_OF_A_LINE: std::ops::RangeInclusive<i64> = 0..=2;

struct Reducer<'a> {
    lines: Lines,
    differs: &'a mut dyn FnMut(&[u8]) -> bool,
    deadline: Instant,
}

/// Drops lines, variables and fields and makes numbers small for as long as `differs` still says
/// yes.
pub fn reduce(
    session: &[u8],
    differs: &mut dyn FnMut(&[u8]) -> bool,
    deadline: Instant,
) -> Vec<u8> {
    let lines = session
        .split_inclusive(|&byte| byte == b'\n')
        .map(<[u8]>::to_vec)
        .collect();
    let mut reducer = Reducer {
        lines,
        differs,
        deadline,
    };
    loop {
        let before = reducer.lines.clone();
        reducer.drop_chunks();
        reducer.drop_and_recount();
        reducer.shorten_lines();
        reducer.simplify_numbers();
        if reducer.lines == before || reducer.is_late() {
            return reducer.lines.concat();
        }
    }
}

impl Reducer<'_> {
    fn is_late(&self) -> bool {
        Instant::now() >= self.deadline
    }

    fn accept(&mut self, candidate: Lines) -> bool {
        let taken = !self.is_late() && (self.differs)(&candidate.concat());
        if taken {
            self.lines = candidate;
        }
        taken
    }

    fn accept_line(&mut self, place: usize, line: Vec<u8>) -> bool {
        let mut candidate = self.lines.clone();
        candidate[place] = line;
        self.accept(candidate)
    }

    /// Drops runs of lines, long ones first and the last ones first, as later lines lean on earlier
    /// ones.
    fn drop_chunks(&mut self) {
        let mut size = self.lines.len().div_ceil(2);
        while size > 0 {
            let mut end = self.lines.len();
            while end > 0 && !self.is_late() {
                let start = end.saturating_sub(size);
                let mut candidate = self.lines.clone();
                candidate.drain(start..end.min(candidate.len()));
                self.accept(candidate);
                end = start;
            }
            size /= 2;
        }
    }

    /// Drops a line and lowers what later lines count from it: a variable made there, and the
    /// positions of its entries.
    fn drop_and_recount(&mut self) {
        let mut place = self.lines.len();
        while place > 0 {
            place -= 1;
            let number = self.lines[..=place]
                .iter()
                .filter(|line| makes_a_variable(line))
                .count() as i64;
            let variable = makes_a_variable(&self.lines[place]).then_some(number);
            for entries in ENTRIES_OF_A_LINE {
                let mut candidate: Lines = self
                    .lines
                    .iter()
                    .map(|line| recounted(line, variable, entries))
                    .collect();
                candidate.remove(place);
                if self.accept(candidate) {
                    break;
                }
            }
        }
    }

    /// Drops fields of lines that may have any number of them, and the ends of lines that are far
    /// too long.
    fn shorten_lines(&mut self) {
        for place in 0..self.lines.len() {
            let any_number =
                command_of(&self.lines[place]).is_none_or(|command| command.name == "list");
            while any_number && self.drop_fields(place) {}
            for length in [0, 1, 201, 1000] {
                if content(&self.lines[place]).len() > length.max(201) {
                    let shortened = with_content(&self.lines[place], &self.lines[place][..length]);
                    self.accept_line(place, shortened);
                }
            }
        }
    }

    fn drop_fields(&mut self, place: usize) -> bool {
        let fields: Vec<Vec<u8>> = fields_of(&self.lines[place]);
        let mut size = fields.len() / 2;
        while size > 0 && !self.is_late() {
            for start in (1..fields.len()).step_by(size) {
                let mut fewer = fields.clone();
                fewer.drain(start..(start + size).min(fields.len()));
                let line = with_content(&self.lines[place], &fewer.join(&b'\t'));
                if self.accept_line(place, line) {
                    return true;
                }
            }
            size /= 2;
        }
        false
    }

    fn simplify_numbers(&mut self) {
        for place in 0..self.lines.len() {
            for which in 1..fields_of(&self.lines[place]).len().min(20) {
                self.simplify_number(place, which);
            }
        }
    }

    fn simplify_number(&mut self, place: usize, which: usize) {
        let mut fields = fields_of(&self.lines[place]);
        let Some(number) = number_of(&fields[which]) else {
            return;
        };
        let simpler = [0, 1, 2, 3, number / 2];
        for candidate in simpler
            .into_iter()
            .filter(|simpler| simpler.abs() < number.abs())
        {
            fields[which] = candidate.to_string().into_bytes();
            let line = with_content(&self.lines[place], &fields.join(&b'\t'));
            if self.accept_line(place, line) {
                return;
            }
        }
    }
}

/// The command of a line in either language; callscript has all of trailscript.
fn command_of(line: &[u8]) -> Option<&'static Command> {
    Mode::Callscript.command_of_line(content(line))
}

fn content(line: &[u8]) -> &[u8] {
    line.strip_suffix(b"\n").unwrap_or(line)
}

/// The line with other content and the LF that it had, or had not.
fn with_content(line: &[u8], content: &[u8]) -> Vec<u8> {
    let mut changed = content.to_vec();
    if line.ends_with(b"\n") {
        changed.push(b'\n');
    }
    changed
}

fn fields_of(line: &[u8]) -> Vec<Vec<u8>> {
    content(line)
        .split(|&byte| byte == b'\t')
        .map(<[u8]>::to_vec)
        .collect()
}

fn number_of(field: &[u8]) -> Option<i64> {
    std::str::from_utf8(field).ok()?.parse().ok()
}

fn makes_a_variable(line: &[u8]) -> bool {
    command_of(line).is_some_and(|command| ["var", "list"].contains(&command.name))
}

/// The line with the variables above `variable` one lower, and its positions lower by `entries`.
fn recounted(line: &[u8], variable: Option<i64>, entries: i64) -> Vec<u8> {
    let Some(command) = command_of(line) else {
        return line.to_vec();
    };
    let mut fields = fields_of(line);
    for (field, kind) in fields.iter_mut().skip(1).zip(command.fields) {
        let Some(number) = number_of(field) else {
            continue;
        };
        let lowered = match kind {
            Field::Variable if variable.is_some_and(|gone| number > gone) => number - 1,
            Field::Position | Field::Index if number >= entries => number - entries,
            _ => continue,
        };
        *field = lowered.to_string().into_bytes();
    }
    with_content(line, &fields.join(&b'\t'))
}

#[cfg(test)]
mod tests {
    use super::*;
    use std::time::Duration;

    fn reduced(session: &[u8], mut differs: impl FnMut(&[u8]) -> bool) -> String {
        let deadline = Instant::now() + Duration::from_secs(20);
        String::from_utf8(reduce(session, &mut differs, deadline)).unwrap()
    }

    fn has(session: &[u8], wanted: &str) -> bool {
        session
            .split(|&byte| byte == b'\n')
            .any(|line| line == wanted.as_bytes())
    }

    #[test]
    fn only_the_lines_that_matter_are_left() {
        let session: String = (0..1000).map(|number| format!("count{number}\n")).collect();
        let left = reduced(session.as_bytes(), |session| {
            has(session, "count17") && has(session, "count900")
        });
        assert_eq!(left, "count17\ncount900\n");
    }

    #[test]
    fn numbers_become_small_and_lists_short() {
        let session = b"list\t5\t9\t700\t8\npost\t4\tne\t1000\t-\n";
        let matters = |session: &[u8]| {
            let text = String::from_utf8_lossy(session).into_owned();
            text.contains("list\t") && text.contains("\tne\t") && text.ends_with("-\n")
        };
        assert_eq!(reduced(session, matters), "list\t0\npost\t0\tne\t0\t-\n");
    }

    #[test]
    fn a_variable_goes_and_those_after_it_are_counted_lower() {
        let session = b"var\t1\t2\nvar\t7\t7\nshow\t2\n";
        let matters = |session: &[u8]| {
            let creations: Vec<&[u8]> = session
                .split(|&byte| byte == b'\n')
                .filter(|line| line.starts_with(b"var"))
                .collect();
            let place = creations.iter().position(|line| line.ends_with(b"7\t7"));
            place.is_some_and(|place| has(session, &format!("show\t{}", place + 1)))
        };
        assert_eq!(reduced(session, matters), "var\t7\t7\nshow\t1\n");
    }

    #[test]
    fn a_position_moves_with_the_entries_before_it() {
        let session = b"post\t0\tge\t1\t-\npost\t0\tle\t1\t-\nat\t2\t0\tne\t0\n";
        let matters = |session: &[u8]| {
            let posts = session
                .split(|&byte| byte == b'\n')
                .filter(|line| line.starts_with(b"post"))
                .count();
            has(session, &format!("at\t{posts}\t0\tne\t0"))
        };
        assert_eq!(reduced(session, matters), "at\t0\t0\tne\t0\n");
    }

    #[test]
    fn a_late_reduction_gives_the_session_back() {
        let session = b"open\nopen\n";
        assert_eq!(reduce(session, &mut |_| true, Instant::now()), session);
    }

    #[test]
    fn a_missing_final_line_feed_stays_missing() {
        let left = reduced(b"open\ncount\nshow\t3", |session| {
            session.ends_with(b"show\t3") || session.ends_with(b"show\t0")
        });
        assert_eq!(left, "show\t0");
    }
}
