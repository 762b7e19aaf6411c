//! Bounds and values at either end of i32, where a step by one has nowhere to go.

use super::actions;
use crate::scribe::Scribe;
use crate::sketch::{HIGHEST, LOWEST, Operator, Post};

pub fn write(scribe: &mut Scribe) {
    for _ in 0..2 + scribe.random.below(3) {
        create(scribe);
    }
    scribe.open();
    for _ in 0..2 + scribe.random.below(4) {
        remove_down_to_the_last(scribe);
        let lines = 20 + scribe.random.below(60);
        actions::mixed(scribe, lines, create);
    }
    scribe.state();
}

fn create(scribe: &mut Scribe) {
    let near = scribe.random.between(0, 4);
    let width = scribe.random.between(0, 4);
    let (lower, upper) = match scribe.random.below(8) {
        0..3 => (LOWEST + near / 2, LOWEST + near / 2 + width),
        3..6 => (HIGHEST - near / 2 - width, HIGHEST - near / 2),
        6 => (LOWEST + near / 2, HIGHEST - width / 2),
        _ => return create_wide_or_list(scribe),
    };
    scribe.var(lower, upper);
}

fn create_wide_or_list(scribe: &mut Scribe) {
    match scribe.random.below(6) {
        0 => scribe.var(LOWEST, HIGHEST),
        1 => scribe.list(&[HIGHEST, HIGHEST - 3, HIGHEST - 1]),
        2 => scribe.list(&[LOWEST + 2, LOWEST, LOWEST]),
        3 => scribe.list(&[LOWEST, HIGHEST]),
        4 => scribe.var(LOWEST, -1),
        _ => scribe.var(0, HIGHEST),
    }
}

/// Narrows a variable at an end of i32 to its last value and removes that one too.
fn remove_down_to_the_last(scribe: &mut Scribe) {
    let variable = scribe.some_variable();
    let known = scribe.sketch.variables[variable].clone();
    if known.upper - known.lower > 8 {
        let (operator, value) = scribe.random.pick(&[
            (Operator::AtMost, LOWEST + 2),
            (Operator::AtLeast, HIGHEST - 2),
        ]);
        return scribe.post_plain(variable, operator, value);
    }
    let mut values: Vec<i64> = (known.lower..=known.upper)
        .filter(|&value| known.contains(value))
        .collect();
    if known.lower > LOWEST + 8 {
        values.sort();
    } else {
        values.reverse();
    }
    for value in values {
        let reason = scribe.some_reason();
        scribe.post(Post {
            variable,
            operator: Operator::Not,
            value,
            reason,
        });
    }
    for value in [known.lower, known.upper] {
        scribe.post_plain(variable, Operator::Equal, value);
    }
    scribe.look_at(variable);
}
