//! Value lists of every shape, some as long as a line may be and one byte longer.

use super::actions;
use crate::scribe::{Scribe, list_line};
use crate::session::LINE_LIMIT;
use crate::sketch::{HIGHEST, LOWEST, Operator};

pub fn write(scribe: &mut Scribe) {
    for _ in 0..12 + scribe.random.below(12) {
        if scribe.speaks("fresh") && scribe.sketch.room() < 100 {
            scribe.begin_anew();
        }
        create(scribe);
        let newest = scribe.sketch.variables.len() - 1;
        scribe.look_at(newest);
        for _ in 0..3 {
            let (operator, value) = scribe.some_predicate(newest);
            scribe.ask(newest, operator, value);
        }
        actions::question(scribe);
    }
    scribe.line("count");
    scribe.state();
    scribe.open();
    actions::mixed(scribe, 30, create);
}

fn create(scribe: &mut Scribe) {
    let base = scribe.random.between(-40, 40);
    let values = match scribe.random.below(12) {
        0..4 => scattered(scribe, base, 12),
        4 => scattered(scribe, base, 60),
        5 => vec![base; 1 + scribe.random.below(9)],
        6 => (0..scribe.random.between(1, 20))
            .map(|step| base - step)
            .collect(),
        7 => far_apart(scribe),
        8 => at_an_end(scribe),
        9 => Vec::new(),
        10 => with_a_gap(scribe),
        _ => return of_length(scribe),
    };
    scribe.list(&values);
}

fn scattered(scribe: &mut Scribe, base: i64, width: i64) -> Vec<i64> {
    let count = 1 + scribe.random.below(16);
    (0..count)
        .map(|_| base + scribe.random.between(0, width))
        .collect()
}

fn far_apart(scribe: &mut Scribe) -> Vec<i64> {
    scribe
        .random
        .pick(&[
            &[LOWEST, HIGHEST][..],
            &[HIGHEST, 0, LOWEST],
            &[0, HIGHEST],
            &[-1, LOWEST],
            &[0, 100_000],
            &[5, 1_100, 7],
        ])
        .to_vec()
}

fn at_an_end(scribe: &mut Scribe) -> Vec<i64> {
    let steps: Vec<i64> = (0..3).map(|_| scribe.random.between(0, 6)).collect();
    if scribe.random.chance(50) {
        steps.iter().map(|step| HIGHEST - step).collect()
    } else {
        steps.iter().map(|step| LOWEST + step).collect()
    }
}

/// Two values with as many missing between them as there is room for, one fewer or one more.
pub fn with_a_gap(scribe: &mut Scribe) -> Vec<i64> {
    let room = scribe.sketch.room() as i64;
    let missing = (room - 2 + scribe.random.between(-1, 1)).max(0);
    vec![missing + 1, 0]
}

/// A list whose line has 199, 200 or 201 bytes.
fn of_length(scribe: &mut Scribe) {
    let length = LINE_LIMIT - 1 + scribe.random.below(3);
    let values = values_of_length(scribe, length);
    scribe.list(&values);
    if scribe.random.chance(50) {
        let newest = scribe.sketch.variables.len() - 1;
        let value = scribe.random.pick(&values);
        scribe.post_plain(newest, Operator::Not, value);
    }
}

/// Two-digit values, and one of up to four digits at the end, so that every length can be reached.
pub fn values_of_length(scribe: &mut Scribe, length: usize) -> Vec<i64> {
    let mut values = Vec::new();
    while list_line(&values).len() + 6 < length {
        values.push(scribe.random.between(10, 99));
    }
    let digits = length - list_line(&values).len() - 1;
    let rest = match digits {
        2 => vec![scribe.random.between(10, 99)],
        3 => vec![scribe.random.between(100, 140)],
        4 => vec![scribe.random.between(-140, -100)],
        _ => vec![scribe.random.between(1, 9), scribe.random.between(100, 140)],
    };
    values.extend(rest);
    values
}

#[cfg(test)]
mod tests {
    use super::*;
    use crate::commands::Mode;
    use crate::random::Random;
    use crate::vocabulary::Vocabulary;

    #[test]
    fn a_list_line_has_the_length_asked_for() {
        let whole = Vocabulary::whole(Mode::Trailscript);
        let mut scribe = Scribe::new(&whole, Random::from_seed(3));
        for length in 190..=205 {
            let values = values_of_length(&mut scribe, length);
            assert_eq!(list_line(&values).len(), length);
        }
    }
}
