//! Compares two programs that speak the driver's line language, session by session.

mod aiming;
mod answers;
mod arguments;
mod cases;
mod commands;
mod comparing;
mod counting;
mod differing;
mod full;
mod kinds;
mod program;
mod random;
mod recording;
mod reducing;
mod report;
mod scribe;
mod session;
mod sketch;
mod stops;
mod vocabulary;

use comparing::Outcome;
use std::process::ExitCode;

fn main() -> ExitCode {
    let options = match arguments::parse(std::env::args().skip(1)) {
        Ok(Some(options)) => options,
        Ok(None) => {
            print!("{}", arguments::help());
            return ExitCode::SUCCESS;
        }
        Err(complaint) => {
            eprintln!("comparison: {complaint}; --help tells more");
            return ExitCode::from(2);
        }
    };
    match comparing::compare(&options) {
        Ok(Outcome::Equal) => ExitCode::SUCCESS,
        Ok(Outcome::Different) => ExitCode::from(1),
        Ok(Outcome::Crashed) => ExitCode::from(2),
        Err(complaint) => {
            eprintln!("comparison: {complaint}");
            ExitCode::from(2)
        }
    }
}
