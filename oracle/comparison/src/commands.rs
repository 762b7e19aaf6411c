//! The commands of both line languages, each with the fields that it takes.

#[derive(Clone, Copy, PartialEq, Eq, Debug)]
pub enum Mode {
    Trailscript,
    Callscript,
}

impl Mode {
    pub fn named(name: &str) -> Option<Mode> {
        [Mode::Trailscript, Mode::Callscript]
            .into_iter()
            .find(|mode| mode.name() == name)
    }

    pub fn name(self) -> &'static str {
        match self {
            Mode::Trailscript => "trailscript",
            Mode::Callscript => "callscript",
        }
    }

    /// The command that a line names by its first field, whatever follows.
    pub fn command_of_line(self, line: &[u8]) -> Option<&'static Command> {
        let first = line.split(|&byte| byte == b'\t').next().unwrap_or(&[]);
        self.commands()
            .find(|command| command.name.as_bytes() == first)
    }

    pub fn commands(self) -> impl Iterator<Item = &'static Command> {
        let further: &[Command] = match self {
            Mode::Trailscript => &[],
            Mode::Callscript => CALLS,
        };
        DRIVER.iter().chain(further)
    }
}

#[derive(Clone, Copy, PartialEq, Eq, Debug)]
pub enum Field {
    Variable,
    Operator,
    Value,
    Reason,
    Position,
    Index,
    Checkpoint,
    Room,
}

#[derive(Clone, Copy, PartialEq, Eq, Debug)]
pub enum Part {
    Change,
    Look,
    Question,
    Listing,
}

pub struct Command {
    pub name: &'static str,
    pub part: Part,
    pub fields: &'static [Field],
}

impl Command {
    /// The refusals that the call can give (docs/RULES.md, R3). BAD_LINE is not among them, as the
    /// driver gives it before any call.
    pub fn refusals(&self) -> &'static [usize] {
        match self.name {
            "var" | "list" => &[2, 3, 4, 5],
            "post" => &[1, 5, 6, 7],
            "open" => &[8],
            "back" => &[9],
            "synchronise" => &[9, 10],
            "get_trail_entry" => &[11],
            "find_last_decision" => &[12],
            "get_reason_for_predicate_brute_force" => &[1, 13],
            "values_at_checkpoint" => &[11, 10],
            _ if self.part == Part::Listing => &[1, 10],
            _ if self.fields.contains(&Field::Variable) => &[1],
            _ => &[],
        }
    }
}

const fn command(name: &'static str, part: Part, fields: &'static [Field]) -> Command {
    Command { name, part, fields }
}

use Field::*;

/// `list` takes any number of values, so its fields stand here as none.
const DRIVER: &[Command] = &[
    command("var", Part::Change, &[Value, Value]),
    command("list", Part::Change, &[]),
    command("post", Part::Change, &[Variable, Operator, Value, Reason]),
    command("open", Part::Change, &[]),
    command("back", Part::Change, &[Checkpoint]),
    command("ask", Part::Question, &[Variable, Operator, Value]),
    command("at", Part::Question, &[Position, Variable, Operator, Value]),
    command("show", Part::Question, &[Variable]),
    command("count", Part::Look, &[]),
];

const CALLS: &[Command] = &[
    command("fresh", Part::Change, &[]),
    command("synchronise", Part::Change, &[Checkpoint, Room, Room]),
    command("state", Part::Look, &[]),
    command("get_checkpoint", Part::Look, &[]),
    command("num_domains", Part::Look, &[]),
    command("num_trail_entries", Part::Look, &[]),
    command("get_trail_entry", Part::Question, &[Index]),
    command("find_last_decision", Part::Question, &[]),
    command("get_lower_bound", Part::Question, &[Variable]),
    command("get_upper_bound", Part::Question, &[Variable]),
    command(
        "get_lower_bound_at_trail_position",
        Part::Question,
        &[Position, Variable],
    ),
    command(
        "get_upper_bound_at_trail_position",
        Part::Question,
        &[Position, Variable],
    ),
    command("get_initial_lower_bound", Part::Question, &[Variable]),
    command("get_initial_upper_bound", Part::Question, &[Variable]),
    command("is_value_in_domain", Part::Question, &[Variable, Value]),
    command(
        "is_value_in_domain_at_trail_position",
        Part::Question,
        &[Position, Variable, Value],
    ),
    command("is_domain_assigned", Part::Question, &[Variable]),
    command(
        "is_domain_assigned_at_trail_position",
        Part::Question,
        &[Position, Variable],
    ),
    command("get_assigned_value", Part::Question, &[Variable]),
    command(
        "get_assigned_value_at_trail_position",
        Part::Question,
        &[Position, Variable],
    ),
    command(
        "is_predicate_satisfied",
        Part::Question,
        &[Variable, Operator, Value],
    ),
    command(
        "is_predicate_falsified",
        Part::Question,
        &[Variable, Operator, Value],
    ),
    command(
        "get_trail_position",
        Part::Question,
        &[Variable, Operator, Value],
    ),
    command(
        "get_checkpoint_for_predicate",
        Part::Question,
        &[Variable, Operator, Value],
    ),
    command(
        "is_initial_bound",
        Part::Question,
        &[Variable, Operator, Value],
    ),
    command(
        "is_decision_predicate",
        Part::Question,
        &[Variable, Operator, Value],
    ),
    command(
        "get_reason_for_predicate_brute_force",
        Part::Question,
        &[Variable, Operator, Value],
    ),
    command("get_domain_iterator", Part::Listing, &[Variable, Room]),
    command("get_holes", Part::Listing, &[Variable, Room]),
    command(
        "get_holes_at_checkpoint",
        Part::Listing,
        &[Variable, Checkpoint, Room],
    ),
    command(
        "get_holes_at_current_checkpoint",
        Part::Listing,
        &[Variable, Room],
    ),
    command(
        "get_domain_description",
        Part::Listing,
        &[Variable, Room, Room],
    ),
    command("get_initial_holes", Part::Listing, &[Variable, Room]),
    command("values_at_checkpoint", Part::Listing, &[Checkpoint, Room]),
];

#[cfg(test)]
mod tests {
    use super::*;

    #[test]
    fn a_line_is_known_by_its_first_field() {
        let named = |line: &[u8]| {
            Mode::Callscript
                .command_of_line(line)
                .map(|command| command.name)
        };
        assert_eq!(named(b"var\t1\t5"), Some("var"));
        assert_eq!(named(b"state"), Some("state"));
        assert_eq!(named(b"var 1 5"), None);
        assert_eq!(named(b""), None);
        assert!(Mode::Trailscript.command_of_line(b"state").is_none());
    }

    #[test]
    fn trailscript_has_nine_commands() {
        assert_eq!(Mode::Trailscript.commands().count(), 9);
        assert!(
            Mode::Trailscript
                .commands()
                .all(|command| command.name != "state")
        );
    }
}
