//! The scribe writes a session line by line, and keeps the sketch in step with the lines.

use crate::aiming::Aim;
use crate::commands::{Command, Field};
use crate::random::Random;
use crate::session::{LINE_LIMIT, ROOM_LIMIT, Session};
use crate::sketch::{Operator, Post, Sketch};
use crate::vocabulary::Vocabulary;

pub struct Scribe {
    pub vocabulary: Vocabulary,
    pub random: Random,
    pub sketch: Sketch,
    /// The lines drawn so far, those left out too, so that a loop up to a number of lines ends
    /// whatever is listed.
    pub lines: usize,
    bytes: Vec<u8>,
}

impl Scribe {
    pub fn new(vocabulary: &Vocabulary, random: Random) -> Scribe {
        Scribe {
            vocabulary: vocabulary.clone(),
            random,
            sketch: Sketch::fresh(),
            lines: 0,
            bytes: Vec::new(),
        }
    }

    pub fn finish(self, kind: &'static str) -> Session {
        Session {
            kind,
            bytes: self.bytes,
        }
    }

    pub fn drop_last_line_feed(&mut self) {
        if self.bytes.last() == Some(&b'\n') {
            self.bytes.pop();
        }
    }

    /// Writes a line that changes no store, or one whose effect the sketch need not know. A line of
    /// a command that is not listed is left out.
    pub fn line(&mut self, line: impl AsRef<[u8]>) {
        self.lines += 1;
        if self.vocabulary.allows(line.as_ref()) {
            self.bytes.extend_from_slice(line.as_ref());
            self.bytes.push(b'\n');
        }
    }

    pub fn fields(&mut self, fields: &[String]) {
        self.line(fields.join("\t"));
    }

    pub fn speaks(&self, command: &str) -> bool {
        self.vocabulary.has(command)
    }

    /// A listed command of those that fit, if there is one.
    pub fn some_command(&mut self, fits: fn(&Command) -> bool) -> Option<&'static Command> {
        let commands: Vec<&Command> = self
            .vocabulary
            .commands()
            .filter(|command| fits(command))
            .collect();
        (!commands.is_empty()).then(|| self.random.pick(&commands))
    }

    /// The sketch has the variable even where `var` is not listed, as the kinds count on theirs.
    pub fn var(&mut self, lower: i64, upper: i64) {
        self.line(format!("var\t{lower}\t{upper}"));
        self.sketch.create_dense(lower, upper);
    }

    /// Where `list` is not listed, `var` stands in, so that later variables keep their numbers.
    pub fn list(&mut self, values: &[i64]) {
        let ends = values.iter().min().zip(values.iter().max());
        if let (false, Some((&lower, &upper))) = (self.speaks("list"), ends) {
            return self.var(lower, upper);
        }
        let line = list_line(values);
        if line.len() <= LINE_LIMIT {
            self.sketch.create_from_list(values);
        }
        self.line(line);
    }

    pub fn post(&mut self, post: Post) {
        let reason = post
            .reason
            .map_or("-".to_string(), |reason| reason.to_string());
        self.line(format!(
            "post\t{}\t{}\t{}\t{reason}",
            post.variable,
            post.operator.name(),
            post.value
        ));
        if self.speaks("post") {
            self.sketch.post(post);
        }
    }

    pub fn post_plain(&mut self, variable: usize, operator: Operator, value: i64) {
        self.post(Post {
            variable,
            operator,
            value,
            reason: None,
        });
    }

    pub fn open(&mut self) {
        self.line("open");
        if self.speaks("open") {
            self.sketch.open();
        }
    }

    /// Where `back` is not listed, `synchronise` with the same room stands in.
    pub fn back(&mut self, checkpoint: usize) {
        if !self.speaks("back") {
            return self.synchronise(checkpoint, ROOM_LIMIT, ROOM_LIMIT);
        }
        self.line(format!("back\t{checkpoint}"));
        self.sketch.back(checkpoint);
    }

    pub fn synchronise(&mut self, checkpoint: usize, room: usize, second_room: usize) {
        self.line(format!("synchronise\t{checkpoint}\t{room}\t{second_room}"));
        let shorter = room.min(second_room);
        let is_room =
            room.max(second_room) <= ROOM_LIMIT && shorter >= self.sketch.entries_above(checkpoint);
        if is_room && self.speaks("synchronise") {
            self.sketch.back(checkpoint);
        }
    }

    /// Begins anew where `fresh` is at hand; else it can only go back to the root.
    pub fn begin_anew(&mut self) {
        if self.speaks("fresh") {
            self.line("fresh");
            self.sketch = Sketch::fresh();
        } else if self.sketch.checkpoint() > 0 {
            self.back(0);
        }
    }

    pub fn state(&mut self) {
        if self.speaks("state") {
            self.line("state");
        }
    }

    /// Looks at a variable; where `show` is not listed, the whole state has to do.
    pub fn look_at(&mut self, variable: usize) {
        if self.speaks("show") {
            self.show(variable);
        } else {
            self.state();
        }
    }

    pub fn show(&mut self, variable: usize) {
        self.line(format!("show\t{variable}"));
    }

    pub fn ask(&mut self, variable: usize, operator: Operator, value: i64) {
        self.line(format!("ask\t{variable}\t{}\t{value}", operator.name()));
    }

    pub fn at(&mut self, position: usize, variable: usize, operator: Operator, value: i64) {
        self.line(format!(
            "at\t{position}\t{variable}\t{}\t{value}",
            operator.name()
        ));
    }

    /// Writes a question or a listing, its fields aimed. Rooms are ample, as the kind `rooms` is
    /// about short ones.
    pub fn call(&mut self, command: &Command, aim: Aim) {
        let searches_a_reason = command.name == "get_reason_for_predicate_brute_force";
        let aim = if searches_a_reason && self.random.chance(60) {
            self.aim_at_a_reason().unwrap_or(aim)
        } else {
            aim
        };
        let fields = self.fields_of(command, aim);
        self.fields(&fields);
    }

    pub fn fields_of(&mut self, command: &Command, aim: Aim) -> Vec<String> {
        let name = std::iter::once(command.name.to_string());
        name.chain(command.fields.iter().map(|field| self.field(*field, aim)))
            .collect()
    }

    fn field(&mut self, field: Field, aim: Aim) -> String {
        match field {
            Field::Variable => aim.variable.to_string(),
            Field::Operator => aim.predicate.0.name().to_string(),
            Field::Value => aim.predicate.1.to_string(),
            Field::Reason => self
                .some_reason()
                .map_or("-".to_string(), |reason| reason.to_string()),
            Field::Position => self.some_position().to_string(),
            Field::Index => self.some_index().to_string(),
            Field::Checkpoint => self.some_checkpoint().to_string(),
            Field::Room => if self.random.chance(90) {
                ROOM_LIMIT
            } else {
                self.random.below(6)
            }
            .to_string(),
        }
    }
}

pub fn list_line(values: &[i64]) -> String {
    let mut line = "list".to_string();
    for value in values {
        line.push('\t');
        line.push_str(&value.to_string());
    }
    line
}

#[cfg(test)]
mod tests {
    use super::*;
    use crate::commands::Mode;

    fn scribe_with(list: &str) -> Scribe {
        let vocabulary = Vocabulary::of_list(Mode::Callscript, list).unwrap();
        Scribe::new(&vocabulary, Random::from_seed(1))
    }

    #[test]
    fn what_is_not_listed_is_left_out_and_others_stand_in() {
        let mut scribe = scribe_with("var,open,synchronise");
        scribe.list(&[4, 1, 2]);
        scribe.list(&[]);
        scribe.open();
        scribe.post_plain(1, Operator::AtLeast, 3);
        scribe.begin_anew();
        assert_eq!((scribe.sketch.entries.len(), scribe.lines), (4, 5));
        assert_eq!(
            scribe.finish("test").bytes,
            b"var\t1\t4\nopen\nsynchronise\t0\t1024\t1024\n"
        );
    }

    #[test]
    fn the_sketch_does_not_open_where_the_session_cannot() {
        let mut scribe = scribe_with("var,back");
        scribe.open();
        assert_eq!((scribe.sketch.checkpoint(), scribe.lines), (0, 1));
    }

    #[test]
    fn the_sketch_follows_the_lines() {
        let whole = Vocabulary::whole(Mode::Callscript);
        let mut scribe = Scribe::new(&whole, Random::from_seed(1));
        scribe.var(1, 5);
        scribe.open();
        scribe.post_plain(1, Operator::AtLeast, 3);
        scribe.synchronise(0, 0, 1);
        assert_eq!(scribe.sketch.checkpoint(), 1);
        scribe.synchronise(0, 1, 1);
        assert_eq!(
            (scribe.sketch.checkpoint(), scribe.sketch.variables[1].lower),
            (0, 1)
        );
        let session = scribe.finish("test");
        assert_eq!(
            session.bytes,
            b"var\t1\t5\nopen\npost\t1\tge\t3\t-\nsynchronise\t0\t0\t1\nsynchronise\t0\t1\t1\n"
        );
    }
}
