//! Where the lines of a session are aimed: at variables, values and positions that matter.

use crate::scribe::Scribe;
use crate::session::ROOM_LIMIT;
use crate::sketch::{HIGHEST, LOWEST, OPERATORS, Operator, Post};

/// What the fields of one line have in common: the variable that the values are aimed at.
#[derive(Clone, Copy)]
pub struct Aim {
    pub variable: usize,
    pub predicate: (Operator, i64),
}

impl Scribe {
    pub fn some_reason(&mut self) -> Option<u32> {
        match self.random.below(10) {
            0..6 => None,
            6..9 => Some(self.random.below(100) as u32),
            _ => Some(self.random.pick(&[0, 1, u32::MAX, u32::MAX - 1, 1 << 31])),
        }
    }

    /// A variable that exists, rather one with values left.
    pub fn some_variable(&mut self) -> usize {
        let count = self.sketch.variables.len();
        let mut chosen = self.random.below(count);
        for _ in 0..3 {
            let dull = chosen == 0 && self.random.chance(90);
            if !dull && (!self.sketch.variables[chosen].is_emptied() || self.random.chance(15)) {
                break;
            }
            chosen = self.random.below(count);
        }
        chosen
    }

    /// A value at which the variable's answers are likely to change.
    pub fn some_value(&mut self, variable: usize) -> i64 {
        let Some(known) = self.sketch.variables.get(variable) else {
            return self.random.between(-3, 6);
        };
        let (lowest, highest) = (known.lower.min(known.upper), known.lower.max(known.upper));
        let value = match self.random.below(12) {
            0..6 if highest - lowest <= 40 => self.random.between(lowest - 1, highest + 1),
            0..3 => lowest + self.random.between(-2, 3),
            3..6 => highest + self.random.between(-3, 2),
            6..8 => self.random.between(lowest, highest),
            8..10 => self.value_on_the_trail(variable),
            10 => self.value_on_the_trail(variable) + self.random.between(-1, 1),
            _ => self
                .random
                .pick(&[LOWEST, LOWEST + 1, -1, 0, 1, HIGHEST - 1, HIGHEST]),
        };
        value.clamp(LOWEST, HIGHEST)
    }

    fn value_on_the_trail(&mut self, variable: usize) -> i64 {
        let on_it = self
            .sketch
            .entries
            .iter()
            .filter(|entry| entry.post.variable == variable);
        let values: Vec<i64> = on_it.map(|entry| entry.post.value).collect();
        if values.is_empty() {
            0
        } else {
            self.random.pick(&values)
        }
    }

    /// A predicate on the variable, often one that stands on the trail.
    pub fn some_predicate(&mut self, variable: usize) -> (Operator, i64) {
        if self.random.chance(30) {
            let on_it = self
                .sketch
                .entries
                .iter()
                .filter(|entry| entry.post.variable == variable);
            let posted: Vec<_> = on_it
                .map(|entry| (entry.post.operator, entry.post.value))
                .collect();
            if !posted.is_empty() {
                return self.random.pick(&posted);
            }
        }
        (self.random.pick(&OPERATORS), self.some_value(variable))
    }

    pub fn some_aim(&mut self) -> Aim {
        let variable = if self.random.chance(2) {
            self.no_variable()
        } else {
            self.some_variable()
        };
        Aim {
            variable,
            predicate: self.some_predicate(variable),
        }
    }

    /// A number that no variable has. The one of 31 bits would change the operator where it is
    /// packed beside it.
    pub fn no_variable(&mut self) -> usize {
        let count = self.sketch.variables.len();
        self.random.pick(&[
            count,
            count,
            count + 1,
            256,
            1 << 30,
            (1 << 30) + 1,
            1 << 31,
            u32::MAX as usize,
        ])
    }

    pub fn some_position(&mut self) -> usize {
        let length = self.sketch.entries.len();
        match self.random.below(20) {
            0 => self
                .random
                .pick(&[length, length + 1, ROOM_LIMIT, u32::MAX as usize]),
            1..4 => length - 1,
            _ => self.random.below(length),
        }
    }

    pub fn some_index(&mut self) -> usize {
        let length = self.sketch.entries.len();
        if self.random.chance(15) {
            return self
                .random
                .pick(&[length, length, length + 1, ROOM_LIMIT, u32::MAX as usize]);
        }
        self.random.below(length)
    }

    pub fn some_checkpoint(&mut self) -> usize {
        let current = self.sketch.checkpoint();
        if self.random.chance(10) {
            return self
                .random
                .pick(&[current + 1, current + 2, 257, u32::MAX as usize]);
        }
        self.random.below(current + 1)
    }

    /// A predicate that stands on the trail with a reason; one that is only near it would hardly
    /// ever have one.
    pub fn aim_at_a_reason(&mut self) -> Option<Aim> {
        let posts = self.sketch.entries.iter().map(|entry| entry.post);
        let reasoned: Vec<Post> = posts.filter(|post| post.reason.is_some()).collect();
        if reasoned.is_empty() {
            return None;
        }
        let post = self.random.pick(&reasoned);
        Some(Aim {
            variable: post.variable,
            predicate: (post.operator, post.value),
        })
    }
}
