//! The run: session after session is made, fed to the programs and compared.

use crate::arguments::Options;
use crate::cases::{Case, cases};
use crate::counting::{Counts, grouped};
use crate::differing::{Difference, difference};
use crate::program::{Ending, Run, run_both};
use crate::recording::{self, write_session};
use crate::reducing::reduce;
use crate::session::lines_of;
use crate::{full, report, stops};
use std::sync::Arc;
use std::time::{Duration, Instant};

/// While reducing, a program that hangs must not use up the whole time at its first session.
const REDUCING_SESSION_LIMIT: Duration = Duration::from_secs(2);

#[derive(Clone, Copy, PartialEq, Eq, Debug)]
pub enum Outcome {
    Equal,
    Different,
    Crashed,
}

struct Comparison<'a> {
    options: &'a Options,
    counts: Counts,
    outcome: Outcome,
}

pub fn compare(options: &Options) -> Result<Outcome, String> {
    let page = stops::find_page(options.differences.as_deref())?;
    if let Some(folder) = &options.write {
        recording::prepare(folder)?;
    }
    let mut comparison = Comparison {
        options,
        counts: Counts::default(),
        outcome: Outcome::Equal,
    };
    for case in cases(options)? {
        comparison.take(&case?)?;
        if comparison.outcome != Outcome::Equal && !options.keep_going {
            break;
        }
    }
    report::say(&comparison.counts.table());
    let page = page
        .map(std::fs::read_to_string)
        .transpose()
        .map_err(|error| format!("cannot read the page: {error}"))?;
    Ok(comparison.judge(page.as_deref()))
}

impl Comparison<'_> {
    fn take(&mut self, case: &Case) -> Result<(), String> {
        let lines_before = self.counts.lines();
        self.counts
            .add_session(&case.kind, lines_of(&case.session).len());
        let runs = self.run(case, self.options.session_limit)?;
        if let Some(folder) = &self.options.write {
            let answers = if runs.len() == 1 {
                Some(&runs[0].output[..])
            } else {
                None
            };
            let name = format!("{}.{}", case.name, self.options.mode.name());
            write_session(folder, &name, &case.session, answers)?;
        }
        let (Some(judge), Some(other)) = (runs.first(), runs.last()) else {
            return Ok(());
        };
        self.counts
            .add_answers(self.options.mode, &case.name, &case.session, &judge.output);
        if let Some(found) = difference(&case.session, judge, other) {
            self.counts.differences += 1;
            self.outcome = if found.is_crash() || self.outcome == Outcome::Crashed {
                Outcome::Crashed
            } else {
                Outcome::Different
            };
            if self.counts.differences == 1 {
                self.show(case, runs, found, lines_before)?;
            }
        }
        Ok(())
    }

    /// One run for each program; the judge's comes first, from the file where its answers are on
    /// file.
    fn run(&self, case: &Case, limit: Duration) -> Result<Vec<Run>, String> {
        let input: Arc<[u8]> = Arc::from(&case.session[..]);
        let recorded = case.recorded.iter().map(|answers| Run {
            output: answers.clone(),
            ending: Ending::Status(0),
            complaint: Vec::new(),
        });
        let mut runs: Vec<Run> = recorded.collect();
        match &self.options.programs[..] {
            [] => {}
            [only] => runs.push(only.run(&input, limit)?),
            [judge, other, ..] => runs.extend(run_both([judge, other], &input, limit)?),
        }
        Ok(runs)
    }

    fn show(
        &self,
        case: &Case,
        runs: Vec<Run>,
        found: Difference,
        lines_before: usize,
    ) -> Result<(), String> {
        let met = lines_before + found.line.unwrap_or(lines_of(&case.session).len());
        let (session, runs, found) = match case.recorded {
            Some(_) => (case.session.clone(), runs, found),
            None => self.reduced(case, runs, found)?,
        };
        let folder = report::keep(&session, &runs)?;
        let size = lines_of(&session).len();
        report::say(&format!(
            "difference found: kind {}, session {}, after {} lines, reduced to {size} lines\n\
            kept in {}\n\n{}\n{}\n",
            case.kind,
            case.name,
            grouped(met),
            folder.display(),
            report::shown_session(&session),
            report::shown_difference(&found, &runs, self.names()),
        ));
        Ok(())
    }

    fn names(&self) -> [&str; 2] {
        match &self.options.programs[..] {
            [judge, other, ..] => [&judge.text, &other.text],
            [only] if self.options.recorded.is_some() => ["the answers on file", &only.text],
            [only] => [&only.text, "the same"],
            [] => ["", ""],
        }
    }

    /// The reduced session with a last run of it. Where this one shows nothing any more, the
    /// session is given back whole.
    fn reduced(
        &self,
        case: &Case,
        runs: Vec<Run>,
        found: Difference,
    ) -> Result<(Vec<u8>, Vec<Run>, Difference), String> {
        let again = |session: &[u8], limit| {
            let runs = self.run(&Case::again(session), limit)?;
            let found = difference(session, &runs[0], &runs[runs.len() - 1]);
            Ok::<_, String>((runs, found))
        };
        let deadline = Instant::now() + self.options.reduce_limit;
        let limit = REDUCING_SESSION_LIMIT.min(self.options.session_limit);
        // A damaged line that loses a field can come to name a command that is not listed.
        let allowed = |session: &[u8]| {
            let lines = lines_of(session);
            lines
                .iter()
                .all(|line| self.options.vocabulary.allows(line))
        };
        let small = reduce(
            &case.session,
            &mut |session| allowed(session) && matches!(again(session, limit), Ok((_, Some(_)))),
            deadline,
        );
        match again(&small, self.options.session_limit)? {
            (runs, Some(found)) => Ok((small, runs, found)),
            _ => Ok((case.session.clone(), runs, found)),
        }
    }

    fn judge(&self, page: Option<&str>) -> Outcome {
        let mut complaints = stops::unexplained(&self.counts, page);
        if self.options.full && self.outcome == Outcome::Equal {
            complaints.extend(full::shortfalls(&self.counts, &self.options.vocabulary));
        }
        for complaint in &complaints {
            report::say(&format!("not as it should be: {complaint}\n"));
        }
        match self.outcome {
            Outcome::Equal if !complaints.is_empty() => Outcome::Different,
            outcome => outcome,
        }
    }
}
