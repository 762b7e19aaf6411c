//! Random lines on small domains with many holes.

use super::actions;
use crate::scribe::Scribe;

pub fn write(scribe: &mut Scribe) {
    for _ in 0..1 + scribe.random.below(5) {
        create(scribe);
    }
    if scribe.random.chance(80) {
        scribe.open();
    }
    let lines = 200 + scribe.random.below(400);
    actions::mixed(scribe, lines, create);
    scribe.state();
}

fn create(scribe: &mut Scribe) {
    let lower = scribe.random.between(-6, 6);
    let width = scribe.random.between(0, 11);
    if scribe.random.chance(60) {
        return scribe.var(lower, lower + width);
    }
    let mut values = vec![lower];
    for _ in 0..=width / 2 {
        values.push(scribe.random.between(lower - width, lower + width));
    }
    scribe.list(&values);
}
