//! Lines in, lines out.

use std::io;
use std::io::BufWriter;
use std::io::Write;

use crate::answer::Answer;
use crate::commands;
use crate::commands::Language;
use crate::lines::Lines;
use crate::refusal::Refusal;
use crate::stop;
use crate::stop::Unanswered;
use crate::store::Outcome;
use crate::store::Store;

pub(crate) fn run(language: Language) -> io::Result<()> {
    stop::watch();
    let mut lines = Lines::of(io::stdin().lock());
    let mut output = BufWriter::with_capacity(1 << 16, io::stdout().lock());
    let mut store = Store::default();
    let mut answer = Answer::default();
    for number in 1_u64.. {
        if lines.drained() {
            output.flush()?;
        }
        let Some(line) = lines.next()? else {
            break;
        };
        answer.clear();
        let outcome = match line {
            Some(line) => commands::perform(language, line, &mut store, &mut answer),
            None => Err(Refusal::BadLine.into()),
        };
        print(number, outcome, &answer, &mut output)?;
    }
    output.flush()
}

fn print(
    number: u64,
    outcome: Outcome,
    answer: &Answer,
    output: &mut impl Write,
) -> io::Result<()> {
    match outcome {
        Ok(()) => {
            write!(output, "{number}\tok")?;
            output.write_all(answer.bytes())?;
            output.write_all(b"\n")
        }
        Err(Unanswered::Refused(refusal)) => {
            writeln!(output, "{number}\trefused\t{}", refusal.number())
        }
        Err(Unanswered::Stopped(name)) => writeln!(output, "{number}\tstopped\t{name}"),
    }
}
