//! The commands that the lines of a session may name: all of a mode, or those that were listed.

use crate::commands::{Command, Mode};

#[derive(Clone)]
pub struct Vocabulary {
    pub mode: Mode,
    commands: Vec<&'static Command>,
}

impl Vocabulary {
    pub fn whole(mode: Mode) -> Vocabulary {
        Vocabulary {
            mode,
            commands: mode.commands().collect(),
        }
    }

    /// The commands of a list with commas. A word of the other mode is let pass, so that one list
    /// serves a run in both; a list with nothing for this mode is refused.
    pub fn of_list(mode: Mode, list: &str) -> Result<Vocabulary, String> {
        let words: Vec<&str> = list.split(',').collect();
        for word in &words {
            if !Mode::Callscript.commands().any(|known| known.name == *word) {
                return Err(format!("there is no command {word:?} for --commands"));
            }
        }
        let listed = |command: &&Command| words.contains(&command.name);
        let commands: Vec<&Command> = mode.commands().filter(listed).collect();
        if commands.is_empty() {
            return Err(format!("{} has no command of {list}", mode.name()));
        }
        Ok(Vocabulary { mode, commands })
    }

    pub fn commands(&self) -> impl Iterator<Item = &'static Command> + '_ {
        self.commands.iter().copied()
    }

    pub fn has(&self, name: &str) -> bool {
        self.commands().any(|command| command.name == name)
    }

    /// Whether a session may hold the line. One that names no command of the mode is refused by
    /// every program, whatever it can do, so it may stay.
    pub fn allows(&self, line: &[u8]) -> bool {
        let named = self.mode.command_of_line(line);
        named.is_none_or(|command| self.has(command.name))
    }
}

#[cfg(test)]
mod tests {
    use super::*;

    #[test]
    fn a_line_of_a_command_that_is_not_listed_is_not_allowed() {
        let vocabulary = Vocabulary::of_list(Mode::Callscript, "post,state").unwrap();
        for line in [
            &b"state"[..],
            b"post\t1",
            b"",
            b"frob",
            b"show 1",
            b"\tshow",
        ] {
            assert!(vocabulary.allows(line), "{line:?}");
        }
        for line in [&b"show\t1"[..], b"show", b"show\t1\t1", b"fresh\t"] {
            assert!(!vocabulary.allows(line), "{line:?}");
        }
    }

    #[test]
    fn a_word_that_neither_mode_has_is_refused() {
        for list in [
            "",
            "frob",
            "post,",
            ",post",
            "post,,open",
            "post, open",
            "Post",
        ] {
            assert!(
                Vocabulary::of_list(Mode::Callscript, list).is_err(),
                "{list}"
            );
        }
    }

    #[test]
    fn a_word_of_callscript_is_nothing_to_trailscript() {
        let vocabulary = Vocabulary::of_list(Mode::Trailscript, "state,post").unwrap();
        assert!(vocabulary.has("post") && !vocabulary.has("state"));
        assert!(vocabulary.allows(b"state"));
        assert!(Vocabulary::of_list(Mode::Trailscript, "state,fresh").is_err());
    }
}
