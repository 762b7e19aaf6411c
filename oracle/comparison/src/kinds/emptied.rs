//! Posts on variables that have no value left, and backs that give the values back.

use super::actions;
use crate::scribe::Scribe;
use crate::sketch::{HIGHEST, LOWEST, OPERATORS, Operator, Post};

pub fn write(scribe: &mut Scribe) {
    scribe.var(1, 10);
    scribe.list(&[2, 5, 9, 6]);
    scribe.var(-3, -3);
    for _ in 0..4 + scribe.random.below(6) {
        scribe.open();
        let variable = 1 + scribe.random.below(3);
        prepare(scribe, variable);
        empty(scribe, variable);
        post_around(scribe, variable);
        look(scribe, variable);
        if scribe.random.chance(70) {
            actions::back(scribe);
            look(scribe, variable);
        }
    }
    if scribe.sketch.checkpoint() > 0 {
        scribe.back(0);
    }
    scribe.state();
}

fn prepare(scribe: &mut Scribe, variable: usize) {
    for _ in 0..scribe.random.below(4) {
        let post = actions::post_on(scribe, variable);
        if !scribe.sketch.variables[variable].would_be_emptied(post.operator, post.value) {
            scribe.post(post);
        }
    }
}

/// Empties a variable in one of the ways that leave different bounds behind.
fn empty(scribe: &mut Scribe, variable: usize) {
    let known = scribe.sketch.variables[variable].clone();
    if known.is_emptied() {
        return;
    }
    let hole = known
        .holes
        .iter()
        .copied()
        .find(|&hole| known.lower < hole && hole < known.upper);
    let far = scribe.random.between(1, 5);
    match scribe.random.below(7) {
        0 => scribe.post_plain(variable, Operator::AtLeast, known.upper + far),
        1 => scribe.post_plain(variable, Operator::AtMost, known.lower - far),
        2 => scribe.post_plain(variable, Operator::Equal, known.upper + far),
        3 => scribe.post_plain(variable, Operator::Equal, known.lower - far),
        4 => scribe.post_plain(variable, Operator::Equal, hole.unwrap_or(known.upper + 1)),
        5 => scribe.post_plain(variable, Operator::AtLeast, HIGHEST),
        _ => remove_all(scribe, variable),
    }
}

fn remove_all(scribe: &mut Scribe, variable: usize) {
    let known = scribe.sketch.variables[variable].clone();
    for value in known.lower..=known.upper.min(known.lower + 12) {
        scribe.post_plain(variable, Operator::Not, value);
    }
}

/// The values at, between and beyond the crossed bounds; the operators are drawn, Equal most often.
fn post_around(scribe: &mut Scribe, variable: usize) {
    for _ in 0..2 + scribe.random.below(6) {
        let known = &scribe.sketch.variables[variable];
        let (lower, upper) = (known.lower, known.upper);
        let between = upper + (lower - upper) / 2;
        let choices = [
            upper,
            lower,
            between,
            upper - 1,
            lower + 1,
            upper + 1,
            lower - 1,
            LOWEST,
            HIGHEST,
        ];
        let value = scribe.random.pick(&choices).clamp(LOWEST, HIGHEST);
        let operator = if scribe.random.chance(40) {
            Operator::Equal
        } else {
            scribe.random.pick(&OPERATORS)
        };
        let reason = scribe.some_reason();
        scribe.post(Post {
            variable,
            operator,
            value,
            reason,
        });
        if scribe.random.chance(15) {
            scribe.open();
        }
    }
}

fn look(scribe: &mut Scribe, variable: usize) {
    scribe.show(variable);
    scribe.line("count");
    scribe.state();
    for _ in 0..6 {
        let (operator, value) = scribe.some_predicate(variable);
        if scribe.random.chance(50) {
            scribe.ask(variable, operator, value);
        } else {
            let position = scribe.some_position();
            scribe.at(position, variable, operator, value);
        }
        actions::question(scribe);
    }
}
