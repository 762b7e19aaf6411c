//! A sketch of the store, kept only so that the lines of a session can be aimed. No answer is ever
//! taken from it.

use std::collections::BTreeSet;

pub const LOWEST: i64 = i32::MIN as i64;
pub const HIGHEST: i64 = i32::MAX as i64;
pub const VARIABLES: usize = 256;
pub const ENTRIES: usize = 1024;
pub const CHECKPOINTS: usize = 256;

#[derive(Clone, Copy, PartialEq, Eq, Debug)]
pub enum Operator {
    AtLeast,
    AtMost,
    Not,
    Equal,
}

pub const OPERATORS: [Operator; 4] = [
    Operator::AtLeast,
    Operator::AtMost,
    Operator::Not,
    Operator::Equal,
];

impl Operator {
    pub fn name(self) -> &'static str {
        match self {
            Operator::AtLeast => "ge",
            Operator::AtMost => "le",
            Operator::Not => "ne",
            Operator::Equal => "eq",
        }
    }
}

#[derive(Clone, Copy)]
pub struct Post {
    pub variable: usize,
    pub operator: Operator,
    pub value: i64,
    pub reason: Option<u32>,
}

#[derive(Clone)]
pub struct Variable {
    pub lower: i64,
    pub upper: i64,
    pub holes: BTreeSet<i64>,
}

impl Variable {
    fn dense(lower: i64, upper: i64) -> Variable {
        Variable {
            lower,
            upper,
            holes: BTreeSet::new(),
        }
    }

    pub fn is_emptied(&self) -> bool {
        self.lower > self.upper
    }

    pub fn contains(&self, value: i64) -> bool {
        self.lower <= value && value <= self.upper && !self.holes.contains(&value)
    }

    /// How many values are left, reckoned up to `most`.
    pub fn left(&self, most: i64) -> i64 {
        let width = (self.upper - self.lower + 1).max(0);
        let holes = self
            .holes
            .iter()
            .filter(|&&hole| self.lower < hole && hole < self.upper)
            .count();
        (width - holes as i64).min(most)
    }

    fn step_up(&self, mut value: i64, upper: i64) -> i64 {
        while value <= upper && self.holes.contains(&value) {
            value += 1;
        }
        value
    }

    fn step_down(&self, mut value: i64, lower: i64) -> i64 {
        while value >= lower && self.holes.contains(&value) {
            value -= 1;
        }
        value
    }

    /// The bounds after a post, or none if the post does nothing.
    pub fn after(&self, operator: Operator, value: i64) -> Option<(i64, i64)> {
        let (lower, upper) = (self.lower, self.upper);
        match operator {
            Operator::AtLeast => (value > lower).then(|| (self.step_up(value, upper), upper)),
            Operator::AtMost => (value < upper).then(|| (lower, self.step_down(value, lower))),
            Operator::Not => self.contains(value).then(|| {
                let lower = if value == lower {
                    self.step_up(value + 1, upper)
                } else {
                    lower
                };
                let upper = if value == upper {
                    self.step_down(value - 1, lower)
                } else {
                    upper
                };
                (lower, upper)
            }),
            Operator::Equal if upper <= value && value <= lower => None,
            Operator::Equal => {
                let raised = if lower < value {
                    self.step_up(value, upper)
                } else {
                    lower
                };
                let lowered = if upper > value {
                    self.step_down(value, raised)
                } else {
                    upper
                };
                Some((raised, lowered))
            }
        }
    }

    pub fn would_be_emptied(&self, operator: Operator, value: i64) -> bool {
        self.after(operator, value)
            .is_some_and(|(lower, upper)| lower > upper)
    }
}

#[derive(Clone, Copy)]
pub struct Entry {
    pub post: Post,
    old_lower: i64,
    old_upper: i64,
}

pub struct Sketch {
    pub variables: Vec<Variable>,
    pub entries: Vec<Entry>,
    /// For each open checkpoint, the number of entries when it was opened.
    pub opened: Vec<usize>,
}

impl Sketch {
    pub fn fresh() -> Sketch {
        let mut sketch = Sketch {
            variables: Vec::new(),
            entries: Vec::new(),
            opened: Vec::new(),
        };
        sketch.create_dense(1, 1);
        sketch
    }

    pub fn checkpoint(&self) -> usize {
        self.opened.len()
    }

    pub fn room(&self) -> usize {
        ENTRIES - self.entries.len()
    }

    /// How many entries a synchronise to `checkpoint` would undo.
    pub fn entries_above(&self, checkpoint: usize) -> usize {
        self.opened
            .get(checkpoint)
            .map_or(0, |&length| self.entries.len() - length)
    }

    /// The entries of a checkpoint, as a range of positions.
    pub fn entries_of(&self, checkpoint: usize) -> std::ops::Range<usize> {
        let length = self.entries.len();
        let start = if checkpoint == 0 {
            0
        } else {
            self.opened.get(checkpoint - 1).copied().unwrap_or(length)
        };
        start..self.opened.get(checkpoint).copied().unwrap_or(length)
    }

    fn push(&mut self, post: Post) {
        let variable = &self.variables[post.variable];
        self.entries.push(Entry {
            post,
            old_lower: variable.lower,
            old_upper: variable.upper,
        });
    }

    fn may_create(&self, needed: usize) -> bool {
        self.opened.is_empty() && self.variables.len() < VARIABLES && needed <= self.room()
    }

    pub fn create_dense(&mut self, lower: i64, upper: i64) {
        if lower > upper || !self.may_create(2) {
            return;
        }
        let variable = self.variables.len();
        self.variables.push(Variable::dense(lower, upper));
        self.push(Post {
            variable,
            operator: Operator::AtLeast,
            value: lower,
            reason: None,
        });
        self.push(Post {
            variable,
            operator: Operator::AtMost,
            value: upper,
            reason: None,
        });
    }

    pub fn create_from_list(&mut self, values: &[i64]) {
        let listed: BTreeSet<i64> = values.iter().copied().collect();
        let (Some(&lower), Some(&upper)) = (listed.first(), listed.last()) else {
            return;
        };
        let missing = (upper - lower + 1) as usize - listed.len();
        if !self.may_create(2 + missing) {
            return;
        }
        let variable = self.variables.len();
        self.create_dense(lower, upper);
        for value in (lower..=upper).filter(|value| !listed.contains(value)) {
            self.post(Post {
                variable,
                operator: Operator::Not,
                value,
                reason: None,
            });
        }
    }

    pub fn post(&mut self, post: Post) {
        let Some(variable) = self.variables.get(post.variable) else {
            return;
        };
        let Some((lower, upper)) = variable.after(post.operator, post.value) else {
            return;
        };
        let steps_past_an_end = lower > HIGHEST || upper < LOWEST;
        if self.room() == 0 || steps_past_an_end {
            return;
        }
        self.push(post);
        let variable = &mut self.variables[post.variable];
        (variable.lower, variable.upper) = (lower, upper);
        if post.operator == Operator::Not {
            variable.holes.insert(post.value);
        }
    }

    pub fn open(&mut self) {
        if self.opened.len() < CHECKPOINTS {
            self.opened.push(self.entries.len());
        }
    }

    pub fn back(&mut self, checkpoint: usize) {
        let Some(&length) = self.opened.get(checkpoint) else {
            return;
        };
        for entry in self.entries.split_off(length).into_iter().rev() {
            let variable = &mut self.variables[entry.post.variable];
            (variable.lower, variable.upper) = (entry.old_lower, entry.old_upper);
            if entry.post.operator == Operator::Not {
                variable.holes.remove(&entry.post.value);
            }
        }
        self.opened.truncate(checkpoint);
    }
}

#[cfg(test)]
mod tests {
    use super::*;

    #[test]
    fn a_back_brings_back_bounds_and_holes() {
        let mut sketch = Sketch::fresh();
        sketch.create_from_list(&[4, 1, 4]);
        assert_eq!(sketch.entries.len(), 6);
        sketch.open();
        sketch.post(Post {
            variable: 1,
            operator: Operator::Not,
            value: 1,
            reason: None,
        });
        assert_eq!(
            (sketch.variables[1].lower, sketch.variables[1].upper),
            (4, 4)
        );
        sketch.back(0);
        assert_eq!(
            (sketch.variables[1].lower, sketch.variables[1].upper),
            (1, 4)
        );
        assert_eq!(sketch.variables[1].holes.len(), 2);
    }
}
