//! Lines that several kinds of session draw from.

use crate::commands::{Command, Part};
use crate::scribe::Scribe;
use crate::sketch::{CHECKPOINTS, OPERATORS, Operator, Post, VARIABLES};

/// A post near the bounds of a variable. Most posts that would empty it are drawn again, so that
/// sessions live on.
pub fn post(scribe: &mut Scribe) {
    let variable = scribe.some_variable();
    let mut chosen = post_on(scribe, variable);
    for _ in 0..2 {
        let emptying =
            scribe.sketch.variables[variable].would_be_emptied(chosen.operator, chosen.value);
        if !emptying || scribe.random.chance(25) {
            break;
        }
        chosen = post_on(scribe, variable);
    }
    scribe.post(chosen);
}

pub fn post_on(scribe: &mut Scribe, variable: usize) -> Post {
    let operator = match scribe.random.below(10) {
        0..5 => Operator::Not,
        5..7 => Operator::AtLeast,
        7..9 => Operator::AtMost,
        _ => Operator::Equal,
    };
    let value = scribe.some_value(variable);
    let reason = scribe.some_reason();
    Post {
        variable,
        operator,
        value,
        reason,
    }
}

/// A question that changes nothing: any of the mode's questions, and at times a listing or the
/// state.
pub fn question(scribe: &mut Scribe) {
    let aim = scribe.some_aim();
    match scribe.random.below(20) {
        0..4 if scribe.speaks("ask") => {
            scribe.ask(aim.variable, aim.predicate.0, aim.predicate.1);
        }
        4..8 if scribe.speaks("at") => {
            let position = scribe.some_position();
            scribe.at(position, aim.variable, aim.predicate.0, aim.predicate.1);
        }
        8..10 if scribe.speaks("show") => scribe.show(aim.variable),
        10 if scribe.speaks("count") => scribe.line("count"),
        11..13 => scribe.state(),
        _ => {
            if let Some(command) = scribe.some_command(asks) {
                scribe.call(command, aim);
            }
        }
    }
}

/// Whether the command only asks. The state is left out, as it is long and has its own turn.
fn asks(command: &Command) -> bool {
    command.part != Part::Change && command.name != "state"
}

/// A line aimed at a refusal that a session would rarely meet by itself.
pub fn refusal(scribe: &mut Scribe) {
    let current = scribe.sketch.checkpoint();
    match scribe.random.below(9) {
        1 if scribe.speaks("show") => {
            let variable = scribe.no_variable();
            scribe.show(variable);
        }
        2 if scribe.speaks("at") => {
            let (variable, position) = (scribe.no_variable(), scribe.some_position());
            let operator = scribe.random.pick(&OPERATORS);
            scribe.at(position, variable, operator, 1);
        }
        0..3 => {
            let variable = scribe.no_variable();
            let post = post_on(scribe, variable);
            scribe.post(post);
        }
        3 if current > 0 => scribe.var(0, 3),
        4 if current > 0 => scribe.list(&[3, 1]),
        3..5 => scribe.var(2, 1),
        5 => scribe.line("list"),
        6 => {
            let lower = scribe.some_value(0);
            scribe.line(format!("var\t{lower}\t{}", lower - 1));
        }
        7 => scribe.back(current),
        _ => {
            let checkpoint =
                scribe
                    .random
                    .pick(&[current, current + 1, CHECKPOINTS, u32::MAX as usize]);
            scribe.back(checkpoint.max(current));
        }
    }
}

pub fn back(scribe: &mut Scribe) {
    let current = scribe.sketch.checkpoint();
    if current == 0 {
        return refusal(scribe);
    }
    let checkpoint = match scribe.random.below(10) {
        0..5 => current - 1,
        5..8 => scribe.random.below(current),
        _ => 0,
    };
    if scribe.speaks("synchronise") && scribe.random.chance(30) {
        let room = scribe.sketch.entries_above(checkpoint);
        scribe.synchronise(checkpoint, room, room);
    } else {
        scribe.back(checkpoint);
    }
}

/// Goes back, or makes more variables, once most variables have no value left.
pub fn relieve(scribe: &mut Scribe, create: fn(&mut Scribe)) {
    let variables = &scribe.sketch.variables[1..];
    let emptied = variables
        .iter()
        .filter(|variable| variable.is_emptied())
        .count();
    if 2 * emptied < variables.len().max(1) && scribe.sketch.room() > 8 {
        return;
    }
    if scribe.sketch.checkpoint() > 0 {
        return back(scribe);
    }
    let worn = scribe.sketch.variables.len() > VARIABLES / 2 || scribe.sketch.room() < 200;
    if worn && scribe.speaks("fresh") {
        scribe.begin_anew();
    }
    create(scribe);
}

/// A mixed run of lines: posts, opens, backs, questions and a few refusals, relieved by `create`.
pub fn mixed(scribe: &mut Scribe, lines: usize, create: fn(&mut Scribe)) {
    let end = scribe.lines + lines;
    while scribe.lines < end {
        match scribe.random.below(100) {
            0..40 => post(scribe),
            40..52 => scribe.open(),
            52..59 => back(scribe),
            59..96 => question(scribe),
            96 => refusal(scribe),
            97 if scribe.speaks("fresh") && scribe.random.chance(25) => {
                scribe.begin_anew();
                create(scribe);
            }
            _ => relieve(scribe, create),
        }
    }
}
