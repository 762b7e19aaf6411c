//! Many open checkpoints, and backs of every length.

use super::actions;
use crate::scribe::Scribe;
use crate::sketch::CHECKPOINTS;

/// One narrow variable, one middling and one wide, so that some are soon emptied and some never.
const WIDTHS: [i64; 3] = [3, 40, 100_000];

pub fn write(scribe: &mut Scribe) {
    for width in WIDTHS {
        scribe.var(1, width);
    }
    scribe.list(&[9, 2, 4, 30, 11]);
    for _ in 0..3 + scribe.random.below(4) {
        descend(scribe);
        ascend(scribe);
    }
    scribe.state();
}

fn descend(scribe: &mut Scribe) {
    let opens = 5 + scribe.random.below(60);
    for _ in 0..opens {
        scribe.open();
        for _ in 0..scribe.random.below(3) {
            actions::post(scribe);
        }
        if scribe.random.chance(30) {
            actions::question(scribe);
        }
    }
    scribe.state();
}

fn ascend(scribe: &mut Scribe) {
    for _ in 0..2 + scribe.random.below(8) {
        let current = scribe.sketch.checkpoint();
        match scribe.random.below(10) {
            0 => scribe.back(current),
            1 => {
                let above = scribe.random.pick(&[
                    current + 1,
                    current + 7,
                    CHECKPOINTS + 1,
                    u32::MAX as usize,
                ]);
                scribe.back(above);
            }
            2 => scribe.back(0),
            _ => actions::back(scribe),
        }
        scribe.look_at(1 + current % 4);
        actions::question(scribe);
        if scribe.random.chance(40) {
            scribe.open();
            actions::post(scribe);
        }
    }
}
