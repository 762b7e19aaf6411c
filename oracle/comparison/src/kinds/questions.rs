//! Every question of the mode, at many positions and values of a store with some history.

use super::actions;
use crate::aiming::Aim;
use crate::commands::{Command, Part};
use crate::scribe::Scribe;
use crate::sketch::{HIGHEST, LOWEST, OPERATORS};

pub fn write(scribe: &mut Scribe) {
    let base = scribe.random.pick(&[0, 0, 0, LOWEST, HIGHEST - 5]);
    scribe.var(base, base + 5);
    scribe.list(&[base + 1, base + 5, base + 3]);
    let changes = 6 + scribe.random.below(12);
    for _ in 0..changes {
        if scribe.random.chance(30) {
            scribe.open();
        }
        actions::post(scribe);
    }
    scribe.state();
    for variable in 0..3 {
        ask_everything(scribe, variable);
    }
    scribe.state();
}

fn ask_everything(scribe: &mut Scribe, variable: usize) {
    for value in values_around(scribe, variable) {
        for operator in OPERATORS {
            let aim = Aim {
                variable,
                predicate: (operator, value),
            };
            scribe.ask(variable, operator, value);
            let position = scribe.some_position();
            scribe.at(position, variable, operator, value);
            for _ in 0..3 {
                if let Some(command) = scribe.some_command(is_question) {
                    scribe.call(command, aim);
                }
            }
        }
    }
}

fn is_question(command: &Command) -> bool {
    command.part == Part::Question
}

/// From two below the smallest value ever posted on the variable to two above the largest, and both
/// ends of i32.
fn values_around(scribe: &Scribe, variable: usize) -> Vec<i64> {
    let on_it = || {
        scribe
            .sketch
            .entries
            .iter()
            .filter(|entry| entry.post.variable == variable)
    };
    let posted = || on_it().map(|entry| entry.post.value);
    let lowest = posted().min().unwrap_or(0);
    let highest = posted().max().unwrap_or(0).min(lowest + 8);
    let near = ((lowest - 2).max(LOWEST)..=(highest + 2).min(HIGHEST)).chain([LOWEST, HIGHEST]);
    near.collect()
}
