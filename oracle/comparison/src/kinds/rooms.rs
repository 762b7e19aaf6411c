//! Lent slices that are too short by one, exact and ample, for every listing and for synchronise.

use super::actions;
use crate::commands::{Command, Field, Part};
use crate::scribe::Scribe;
use crate::session::ROOM_LIMIT;
use crate::sketch::Operator;

pub fn write(scribe: &mut Scribe) {
    scribe.var(1, 12);
    scribe.list(&[4, 9, 1, 7]);
    scribe.var(i32::MAX as i64 - 4, i32::MAX as i64 - 1);
    for _ in 0..4 + scribe.random.below(5) {
        scribe.open();
        for _ in 0..3 + scribe.random.below(5) {
            actions::post(scribe);
        }
        for _ in 0..12 {
            list(scribe);
        }
        if scribe.random.chance(50) {
            synchronise(scribe);
        }
        scribe.state();
    }
}

fn list(scribe: &mut Scribe) {
    let Some(command) = scribe.some_command(|command| command.part == Part::Listing) else {
        return synchronise_without_room(scribe);
    };
    let variable = if scribe.random.chance(3) {
        scribe.no_variable()
    } else {
        scribe.some_variable()
    };
    let checkpoint = scribe.some_checkpoint();
    let length = length_of(scribe, command, variable, checkpoint);
    let mut fields = vec![command.name.to_string()];
    for field in command.fields {
        fields.push(match field {
            Field::Variable => variable.to_string(),
            Field::Checkpoint => checkpoint.to_string(),
            _ => room(scribe, length).to_string(),
        });
    }
    scribe.fields(&fields);
}

/// How many things a listing is likely to have.
fn length_of(scribe: &Scribe, command: &Command, variable: usize, checkpoint: usize) -> usize {
    let Some(known) = scribe.sketch.variables.get(variable) else {
        return 0;
    };
    let holes_within = |positions: std::ops::Range<usize>| {
        let made = scribe.sketch.entries[positions].iter();
        let on_it = made.filter(|entry| entry.post.variable == variable);
        on_it
            .filter(|entry| entry.post.operator == Operator::Not)
            .count()
    };
    match command.name {
        "get_domain_iterator" => known.left(ROOM_LIMIT as i64) as usize,
        "get_holes" => known.holes.len(),
        "get_holes_at_checkpoint" => holes_within(scribe.sketch.entries_of(checkpoint)),
        "get_holes_at_current_checkpoint" => {
            holes_within(scribe.sketch.entries_of(scribe.sketch.checkpoint()))
        }
        "get_initial_holes" => {
            if variable == 2 {
                5
            } else {
                0
            }
        }
        "values_at_checkpoint" => scribe.sketch.entries_of(checkpoint).len(),
        _ => 2 + holes_within(scribe.sketch.entries_of(0).end..scribe.sketch.entries.len()) / 2,
    }
}

fn room(scribe: &mut Scribe, length: usize) -> usize {
    match scribe.random.below(16) {
        0..4 => length.saturating_sub(1),
        4..9 => length,
        9..11 => length + 1,
        11 => 0,
        12 => scribe.random.below(8),
        13..15 => ROOM_LIMIT,
        _ => ROOM_LIMIT + 1,
    }
}

/// Takes a listing's turn where none is listed, as refusal 10 would else be rare. It undoes nothing,
/// so the session goes on as it would.
fn synchronise_without_room(scribe: &mut Scribe) {
    let checkpoint = scribe.random.below(scribe.sketch.checkpoint() + 1);
    let needed = scribe.sketch.entries_above(checkpoint);
    if needed == 0 || scribe.random.chance(75) {
        return;
    }
    let (short, other) = (needed - 1, room(scribe, needed));
    if scribe.random.chance(50) {
        scribe.synchronise(checkpoint, short, other);
    } else {
        scribe.synchronise(checkpoint, other, short);
    }
}

fn synchronise(scribe: &mut Scribe) {
    let current = scribe.sketch.checkpoint();
    let checkpoint = scribe.random.below(current + 1);
    let needed = scribe.sketch.entries_above(checkpoint);
    for _ in 0..2 {
        let (first, second) = (room(scribe, needed), room(scribe, needed));
        scribe.synchronise(checkpoint, first, second);
    }
    if scribe.sketch.checkpoint() > checkpoint {
        scribe.synchronise(checkpoint, needed, needed + 1);
    }
}
