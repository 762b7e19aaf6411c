//! What a run met: sessions, lines, commands and answers, as the judge gave them.

use crate::answers::{Said, answers_of};
use crate::commands::Mode;
use crate::session::lines_of;
use std::collections::BTreeMap;
use std::fmt::Write;

pub const REFUSALS: [&str; 14] = [
    "NO_VARIABLE",
    "NOT_ROOT",
    "BAD_DOMAIN",
    "TOO_MANY_VARIABLES",
    "TRAIL_FULL",
    "STEP_OVERFLOW",
    "EMPTY",
    "TOO_MANY_CHECKPOINTS",
    "NOT_LOWER",
    "NO_ROOM",
    "NO_SUCH_ENTRY",
    "NO_DECISION",
    "NO_REASON",
    "BAD_LINE",
];

#[derive(Default, Clone, Copy)]
pub struct Answered {
    pub ok: usize,
    pub refused: usize,
    pub stopped: usize,
    pub other: usize,
}

impl Answered {
    pub fn lines(&self) -> usize {
        self.ok + self.refused + self.stopped + self.other
    }
}

/// A stop by its name: how often it came, and the first line that met it.
pub struct Stop {
    pub count: usize,
    pub session: String,
    pub line: Vec<u8>,
}

#[derive(Default)]
pub struct Counts {
    pub kinds: BTreeMap<String, (usize, usize)>,
    pub commands: BTreeMap<&'static str, Answered>,
    pub all: Answered,
    /// By refusal number; a number that no refusal has is counted at 0.
    pub refused: [usize; 15],
    pub stops: BTreeMap<String, Stop>,
    pub differences: usize,
}

/// Under which name a line is counted that names no command.
const NO_COMMAND: &str = "(none)";

impl Counts {
    pub fn sessions(&self) -> usize {
        self.kinds.values().map(|(sessions, _)| sessions).sum()
    }

    pub fn lines(&self) -> usize {
        self.kinds.values().map(|(_, lines)| lines).sum()
    }

    pub fn add_session(&mut self, kind: &str, lines: usize) {
        let (sessions, all_lines) = self.kinds.entry(kind.to_string()).or_default();
        *sessions += 1;
        *all_lines += lines;
    }

    /// Counts the answers to a session; `name` is how the session is found again.
    pub fn add_answers(&mut self, mode: Mode, name: &str, session: &[u8], output: &[u8]) {
        for (line, answer) in lines_of(session).into_iter().zip(answers_of(output)) {
            let command = mode
                .command_of_line(line)
                .map_or(NO_COMMAND, |command| command.name);
            let said = answer.said();
            count(self.commands.entry(command).or_default(), said);
            count(&mut self.all, said);
            match said {
                Said::Refused(number) => {
                    self.refused[if number <= 14 { number as usize } else { 0 }] += 1
                }
                Said::Stopped(stop) => self.add_stop(stop, name, line),
                _ => {}
            }
        }
    }

    fn add_stop(&mut self, stop: &[u8], session: &str, line: &[u8]) {
        let name = String::from_utf8_lossy(stop).into_owned();
        let first = || Stop {
            count: 0,
            session: session.to_string(),
            line: line.to_vec(),
        };
        self.stops.entry(name).or_insert_with(first).count += 1;
    }

    pub fn table(&self) -> String {
        let mut table = String::new();
        self.write_kinds(&mut table);
        if self.all.lines() > 0 {
            self.write_answers(&mut table);
            self.write_commands(&mut table);
        }
        let (sessions, lines) = (grouped(self.sessions()), grouped(self.lines()));
        let stopped = grouped(self.all.stopped);
        let _ = writeln!(
            table,
            "\n{sessions} sessions, {lines} lines, {} differences, {stopped} stops",
            self.differences
        );
        table
    }

    fn write_kinds(&self, table: &mut String) {
        let _ = writeln!(
            table,
            "{:<50}{:>12}{:>12}",
            "kind of session", "sessions", "lines"
        );
        for (kind, (sessions, lines)) in &self.kinds {
            let _ = writeln!(
                table,
                "  {kind:<48}{:>12}{:>12}",
                grouped(*sessions),
                grouped(*lines)
            );
        }
    }

    fn write_answers(&self, table: &mut String) {
        let _ = writeln!(table, "\n{:<50}{:>12}", "answer", "lines");
        let _ = writeln!(table, "  {:<48}{:>12}", "ok", grouped(self.all.ok));
        for (number, name) in (1..).zip(REFUSALS) {
            let label = format!("refused {number:>2} {name}");
            let _ = writeln!(table, "  {label:<48}{:>12}", grouped(self.refused[number]));
        }
        for (name, stop) in &self.stops {
            let label = format!("stopped {name}");
            let _ = writeln!(table, "  {label:<48}{:>12}", grouped(stop.count));
        }
        let strange = self.all.other + self.refused[0];
        if strange > 0 {
            let _ = writeln!(table, "  {:<48}{:>12}", "neither", grouped(strange));
        }
    }

    fn write_commands(&self, table: &mut String) {
        let _ = writeln!(
            table,
            "\n{:<50}{:>12}{:>12}{:>12}{:>12}",
            "command", "lines", "ok", "refused", "stopped"
        );
        for (name, answered) in &self.commands {
            let columns = [
                answered.lines(),
                answered.ok,
                answered.refused,
                answered.stopped,
            ];
            let columns: String = columns
                .iter()
                .map(|&count| format!("{:>12}", grouped(count)))
                .collect();
            let _ = writeln!(table, "  {name:<48}{columns}");
        }
    }
}

fn count(answered: &mut Answered, said: Said) {
    *match said {
        Said::Ok => &mut answered.ok,
        Said::Refused(_) => &mut answered.refused,
        Said::Stopped(_) => &mut answered.stopped,
        Said::Other => &mut answered.other,
    } += 1;
}

/// A number with its digits in groups of three.
pub fn grouped(number: usize) -> String {
    let digits = number.to_string();
    let mut text = String::new();
    for (place, digit) in digits.chars().enumerate() {
        if place > 0 && (digits.len() - place).is_multiple_of(3) {
            text.push(',');
        }
        text.push(digit);
    }
    text
}

#[cfg(test)]
mod tests {
    use super::*;

    #[test]
    fn answers_are_counted_by_command_and_by_kind() {
        let mut counts = Counts::default();
        counts.add_session("small", 4);
        let answers = b"1\tok\t1\n2\trefused\t14\n3\tok\ncheckpoint\t0\n4\tstopped\tname\n";
        counts.add_answers(
            Mode::Callscript,
            "small 0",
            b"var\t1\t2\n\nstate\nask\t1\tge\t1\n",
            answers,
        );
        assert_eq!(
            (counts.all.ok, counts.refused[14], counts.all.lines()),
            (2, 1, 4)
        );
        assert_eq!(
            (
                counts.commands["var"].ok,
                counts.commands[NO_COMMAND].refused
            ),
            (1, 1)
        );
        assert_eq!(counts.stops["name"].count, 1);
        assert_eq!(counts.stops["name"].line, b"ask\t1\tge\t1");
        assert!(
            counts
                .table()
                .contains("1 sessions, 4 lines, 0 differences, 1 stops")
        );
    }

    #[test]
    fn digits_are_grouped_by_three() {
        assert_eq!(
            [0, 999, 1000, 1234567].map(grouped),
            ["0", "999", "1,000", "1,234,567"]
        );
    }
}
