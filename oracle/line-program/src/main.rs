//! The oracle: the unchanged Rust, with the numbers, capacities and lines of the rules put around
//! its calls. No rule of the store is written here a second time.

#![allow(
    macro_expanded_macro_exports_accessed_by_absolute_paths,
    reason = "the Rust exports a macro and names it by its path; a build can only include the Rust"
)]

mod answer;
mod changes;
mod commands;
#[cfg(test)]
mod departures;
mod fields;
mod lines;
mod listings;
mod questions;
mod refusal;
mod run;
mod state;
mod stop;
mod store;

#[path = "pumpkin/assertions.rs"]
mod assertions;
#[allow(dead_code, reason = "the Rust has more calls than the rules take over")]
#[path = "pumpkin/basic_types.rs"]
mod basic_types;
#[path = "pumpkin/containers.rs"]
mod containers;
#[allow(dead_code, reason = "the Rust has more calls than the rules take over")]
#[path = "pumpkin/engine/mod.rs"]
mod engine;
#[path = "pumpkin/predicates.rs"]
mod predicates;
#[allow(
    dead_code,
    reason = "the Rust names these, and the store never makes one"
)]
#[path = "pumpkin/propagation.rs"]
mod propagation;
#[path = "pumpkin/variables.rs"]
mod variables;

use std::env;
use std::ffi::OsStr;
use std::process::ExitCode;

use commands::Language;

const USAGE: &str = "usage: oracle trailscript|callscript <LINES >ANSWERS";

fn main() -> ExitCode {
    if option_env!("ORACLE_IS_A_WRONG_COPY").is_some() {
        eprintln!("oracle: this is a wrong copy, made to be found out");
    }
    let arguments: Vec<_> = env::args_os().skip(1).collect();
    let [argument] = arguments.as_slice() else {
        return wrong_arguments("one argument is needed");
    };
    let Some(language) = language(argument) else {
        return wrong_arguments(&format!("there is no {}", argument.display()));
    };
    match run::run(language) {
        Ok(()) => ExitCode::SUCCESS,
        Err(error) => {
            eprintln!("oracle: {error}");
            ExitCode::FAILURE
        }
    }
}

fn language(argument: &OsStr) -> Option<Language> {
    match argument.to_str()? {
        "trailscript" => Some(Language::Trailscript),
        "callscript" => Some(Language::Callscript),
        _ => None,
    }
}

fn wrong_arguments(message: &str) -> ExitCode {
    eprintln!("oracle: {message}\n{USAGE}");
    ExitCode::from(2)
}
