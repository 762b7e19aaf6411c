//! Each capacity and one past it, and room that a back has freed.

use super::{actions, lists};
use crate::scribe::Scribe;
use crate::sketch::{CHECKPOINTS, HIGHEST, LOWEST, OPERATORS, Operator, Post, VARIABLES};

/// The variable that has values enough to fill the trail.
const WIDE: usize = 1;

pub fn write(scribe: &mut Scribe) {
    match scribe.random.below(5) {
        0 => variables(scribe),
        1 => checkpoints(scribe),
        2 => gaps(scribe),
        _ => trail(scribe),
    }
    scribe.state();
    actions::mixed(scribe, 40, |scribe| scribe.var(0, 3));
}

fn variables(scribe: &mut Scribe) {
    let opened_between = scribe.random.chance(30);
    let filled = scribe.random.chance(20);
    scribe.var(-1_000_000, 1_000_000);
    while scribe.sketch.variables.len() < VARIABLES && scribe.sketch.checkpoint() == 0 {
        let lower = scribe.random.between(-5, 5);
        match scribe.random.below(20) {
            0 => scribe.list(&[lower, lower + 1, lower]),
            1 => scribe.var(lower, lower - 1),
            2 if opened_between => {
                scribe.open();
                scribe.var(lower, lower);
                scribe.back(0);
            }
            _ => scribe.var(lower, lower + 4),
        }
    }
    if filled {
        fill(scribe, 0);
    }
    for _ in 0..40 {
        match scribe.random.below(12) {
            0 => scribe.var(1, 0),
            1 => scribe.line("list"),
            2 => scribe.list(&[2, 1]),
            3 => scribe.show(VARIABLES - 1),
            4 => scribe.show(VARIABLES),
            5 => scribe.post_plain(VARIABLES - 1, Operator::Not, 0),
            _ => scribe.var(0, 1),
        }
    }
    scribe.open();
    scribe.var(0, 1);
    scribe.list(&[]);
}

fn checkpoints(scribe: &mut Scribe) {
    scribe.var(0, 1_000_000);
    scribe.var(0, 9);
    for _ in 0..1 + scribe.random.below(3) {
        while may_open(scribe) {
            scribe.open();
            if scribe.random.chance(20) {
                actions::post(scribe);
            }
        }
        for _ in 0..6 {
            scribe.open();
            actions::question(scribe);
        }
        scribe.back(CHECKPOINTS);
        let far = scribe.random.below(CHECKPOINTS);
        let checkpoint = scribe
            .random
            .pick(&[0, CHECKPOINTS - 1, CHECKPOINTS - 2, far]);
        scribe.back(checkpoint);
        scribe.look_at(1);
    }
    while may_open(scribe) {
        scribe.open();
    }
    scribe.open();
}

fn may_open(scribe: &Scribe) -> bool {
    scribe.speaks("open") && scribe.sketch.checkpoint() < CHECKPOINTS
}

/// Lists that need exactly the room that is left, one entry fewer or one more.
fn gaps(scribe: &mut Scribe) {
    let before = scribe.random.between(0, 1000);
    scribe.list(&[before + 1, 0]);
    for _ in 0..4 {
        let values = lists::with_a_gap(scribe);
        scribe.list(&values);
        scribe.var(1, 2);
        scribe.show(1);
        scribe.line("count");
    }
    past_the_trail(scribe);
}

fn trail(scribe: &mut Scribe) {
    scribe.var(-1_000_000, 1_000_000);
    scribe.var(1, 3);
    scribe.var(HIGHEST, HIGHEST);
    scribe.var(LOWEST, LOWEST);
    scribe.post_plain(2, Operator::AtLeast, 6);
    if scribe.random.chance(80) {
        let missing = scribe.sketch.room() as i64 - scribe.random.between(3, 150);
        scribe.list(&[missing + 1, 0]);
    }
    if scribe.random.chance(25) {
        fill(scribe, 0);
        past_the_trail(scribe);
        return;
    }
    for _ in 0..2 + scribe.random.below(3) {
        fill(scribe, 8);
        past_the_trail(scribe);
        free(scribe);
    }
    fill(scribe, 0);
    past_the_trail(scribe);
}

/// Fills the trail with posts on the wide variable, each of which makes an entry.
fn fill(scribe: &mut Scribe, percent_of_opens: usize) {
    while scribe.speaks("post") && scribe.sketch.room() > 0 {
        if scribe.random.chance(percent_of_opens) {
            scribe.open();
        }
        let post = sure_post(scribe);
        scribe.post(post);
        if scribe.random.chance(3) {
            actions::question(scribe);
        }
    }
}

fn sure_post(scribe: &mut Scribe) -> Post {
    let known = scribe.sketch.variables[WIDE].clone();
    let mut inside = scribe.random.between(known.lower + 1, known.upper - 1);
    while known.holes.contains(&inside) {
        inside = scribe.random.between(known.lower + 1, known.upper - 1);
    }
    let (operator, value) = match scribe.random.below(3) {
        0 => (Operator::AtLeast, known.lower + 1),
        1 => (Operator::AtMost, known.upper - 1),
        _ => (Operator::Not, inside),
    };
    let reason = scribe.some_reason();
    Post {
        variable: WIDE,
        operator,
        value,
        reason,
    }
}

/// Posts and creations on a trail that is full: those that need an entry, and those that need none.
fn past_the_trail(scribe: &mut Scribe) {
    for _ in 0..8 {
        let (lower, upper) = (
            scribe.sketch.variables[WIDE].lower,
            scribe.sketch.variables[WIDE].upper,
        );
        match scribe.random.below(18) {
            0 => scribe.post_plain(WIDE, Operator::Not, lower),
            1 => scribe.post_plain(WIDE, Operator::AtLeast, lower + 1),
            2 => scribe.post_plain(WIDE, Operator::AtLeast, lower),
            3 => scribe.post_plain(WIDE, Operator::AtMost, upper),
            4 => scribe.post_plain(WIDE, Operator::Not, upper + 1),
            5 => scribe.post_plain(WIDE, Operator::AtMost, lower - 1),
            6 => scribe.post_plain(WIDE, Operator::Equal, lower),
            7 => post_on_the_emptied(scribe),
            8 => scribe.post_plain(3, Operator::Not, HIGHEST),
            9 => scribe.post_plain(4, Operator::Not, LOWEST),
            10 => scribe.post_plain(3, Operator::Equal, HIGHEST),
            11 => scribe.var(1, 2),
            12 => scribe.list(&[1, 2, 3]),
            13 => scribe.open(),
            _ => actions::refusal(scribe),
        }
    }
    scribe.show(WIDE);
    scribe.line("count");
    scribe.state();
}

/// Variable 2 was emptied by a raised lower bound: it stands at 6 and 3.
fn post_on_the_emptied(scribe: &mut Scribe) {
    let operator = scribe.random.pick(&OPERATORS);
    let value = scribe.random.between(1, 8);
    scribe.post_plain(2, operator, value);
}

fn free(scribe: &mut Scribe) {
    if scribe.sketch.checkpoint() > 0 {
        actions::back(scribe);
    }
    scribe.line("count");
}
