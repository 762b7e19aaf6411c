//! What the command line asks for.

use crate::commands::Mode;
use crate::full;
use crate::kinds::{EXHAUSTIVE, KINDS, Kind, kind_named};
use crate::program::Program;
use crate::vocabulary::Vocabulary;
use std::path::PathBuf;
use std::time::Duration;

pub const USAGE: &str = "\
usage: comparison [OPTION..] [--] 'PROGRAM [WORD..]' ['PROGRAM [WORD..]']

Makes sessions from a seed, feeds each to both programs and compares what they answer, byte for
byte. The first program is the judge: a line at which it answers `stopped` and a name is passed
over. The first difference is reduced to a small session and shown. With one program its answers
are counted and checked for their form.

  --mode MODE           the language of the sessions: trailscript (the default) or callscript
  --seed N              where the sessions come from; default 1
  --lines N             make sessions until they have N lines; default 100000 without --sessions
  --sessions N          make at least N sessions
  --only KIND           sessions of one kind
  --commands LIST       leave out the lines of all commands but these: words of docs/RULES.md and
                        docs/CALLS.md with commas between, as in var,post,open,back,count. Lines
                        that name no command of the mode stay
  --exhaustive          on top of that, every sequence of three posts on five small domains
  --no-exhaustive       leave these out, also with --full
  --full                2000000 lines, 5000 sessions and --exhaustive; fail if an answer or a
                        command came too seldom. With --commands, which must then list var, post
                        and open, only the listed commands are wanted, and the refusals that they
                        can give (below)
  --write FOLDER        write the sessions as NAME.MODE.in, and with one program its answers as
                        NAME.MODE.out, into a folder that is new or empty
  --recorded FOLDER     take the mode's sessions and the judge's answers from such a folder; then
                        give one program
  --differences FILE    the page that explains stops; default docs/DIFFERENCES.md here or above
  --session-seconds N   how long a program may take for one session; default 20
  --reduce-seconds N    how long to reduce a difference; default 60
  --keep-going          count all sessions that differ and not only the first
  --help                this text

Ends with 0 if all is equal; with 1 on a difference, an unexplained stop or a full run that fell
short; with 2 if the arguments are wrong, or a program is not there or was ended by a signal.
";

#[derive(Debug)]
pub enum Only {
    All,
    Kind(&'static str),
    Exhaustive,
}

pub struct Options {
    pub mode: Mode,
    pub vocabulary: Vocabulary,
    pub seed: u64,
    pub lines: usize,
    pub sessions: usize,
    pub only: Only,
    pub exhaustive: bool,
    pub full: bool,
    pub write: Option<PathBuf>,
    pub recorded: Option<PathBuf>,
    pub differences: Option<PathBuf>,
    pub session_limit: Duration,
    pub reduce_limit: Duration,
    pub keep_going: bool,
    pub programs: Vec<Program>,
}

impl Options {
    pub fn kind(&self) -> Option<&'static Kind> {
        match self.only {
            Only::Kind(name) => kind_named(name),
            _ => None,
        }
    }
}

/// What was said on the command line, before what was left unsaid is filled in.
#[derive(Default)]
struct Said {
    mode: Option<Mode>,
    seed: Option<u64>,
    lines: Option<usize>,
    sessions: Option<usize>,
    only: Option<String>,
    commands: Option<String>,
    exhaustive: Option<bool>,
    full: bool,
    write: Option<PathBuf>,
    recorded: Option<PathBuf>,
    differences: Option<PathBuf>,
    session_seconds: Option<u64>,
    reduce_seconds: Option<u64>,
    keep_going: bool,
    programs: Vec<String>,
}

/// The options, or none if help was asked for.
pub fn parse(arguments: impl Iterator<Item = String>) -> Result<Option<Options>, String> {
    let mut said = Said::default();
    let mut arguments = arguments;
    while let Some(argument) = arguments.next() {
        match argument.as_str() {
            "--help" | "-h" => return Ok(None),
            "--" => said.programs.extend(arguments.by_ref()),
            option if option.starts_with('-') => take_option(&mut said, option, &mut arguments)?,
            _ => said.programs.push(argument),
        }
    }
    finish(said).map(Some)
}

fn take_option(
    said: &mut Said,
    option: &str,
    rest: &mut dyn Iterator<Item = String>,
) -> Result<(), String> {
    let mut value = || rest.next().ok_or_else(|| format!("{option} wants a value"));
    match option {
        "--mode" => {
            let name = value()?;
            said.mode = Some(Mode::named(&name).ok_or_else(|| format!("there is no mode {name}"))?);
        }
        "--seed" => said.seed = Some(number(option, &value()?)?),
        "--lines" => said.lines = Some(number(option, &value()?)? as usize),
        "--sessions" => said.sessions = Some(number(option, &value()?)? as usize),
        "--only" => said.only = Some(value()?),
        "--commands" => said.commands = Some(value()?),
        "--exhaustive" => said.exhaustive = Some(true),
        "--no-exhaustive" => said.exhaustive = Some(false),
        "--full" => said.full = true,
        "--write" => said.write = Some(value()?.into()),
        "--recorded" => said.recorded = Some(value()?.into()),
        "--differences" => said.differences = Some(value()?.into()),
        "--session-seconds" => said.session_seconds = Some(number(option, &value()?)?),
        "--reduce-seconds" => said.reduce_seconds = Some(number(option, &value()?)?),
        "--keep-going" => said.keep_going = true,
        _ => return Err(format!("there is no option {option}")),
    }
    Ok(())
}

fn number(option: &str, text: &str) -> Result<u64, String> {
    text.replace([',', '_'], "")
        .parse()
        .map_err(|_| format!("{option} wants a number, not {text}"))
}

fn finish(said: Said) -> Result<Options, String> {
    let mode = said.mode.unwrap_or(Mode::Trailscript);
    let only = only_of(said.only.as_deref(), mode)?;
    check_together(&said, &only)?;
    let vocabulary = vocabulary_of(&said, mode)?;
    let usual_lines = match (said.full, said.sessions) {
        (true, _) => full::LINES,
        (false, Some(_)) => 0,
        (false, None) => 100_000,
    };
    let programs = said
        .programs
        .iter()
        .map(|text| Program::from_command_line(text));
    Ok(Options {
        mode,
        vocabulary,
        seed: said.seed.unwrap_or(1),
        lines: said.lines.unwrap_or(usual_lines),
        sessions: said
            .sessions
            .unwrap_or(if said.full { full::SESSIONS } else { 0 }),
        exhaustive: said.exhaustive.unwrap_or(said.full) || matches!(only, Only::Exhaustive),
        only,
        full: said.full,
        write: said.write,
        recorded: said.recorded,
        differences: said.differences,
        session_limit: Duration::from_secs(said.session_seconds.unwrap_or(20)),
        reduce_limit: Duration::from_secs(said.reduce_seconds.unwrap_or(60)),
        keep_going: said.keep_going,
        programs: programs.collect::<Result<_, _>>()?,
    })
}

fn only_of(name: Option<&str>, mode: Mode) -> Result<Only, String> {
    match name {
        None => Ok(Only::All),
        Some(EXHAUSTIVE) => Ok(Only::Exhaustive),
        Some(name) => {
            let known: Vec<&str> = KINDS
                .iter()
                .map(|kind| kind.name)
                .chain([EXHAUSTIVE])
                .collect();
            let kind = kind_named(name).ok_or_else(|| {
                format!("there is no kind {name}; there are {}", known.join(", "))
            })?;
            if kind.is_in(mode) {
                Ok(Only::Kind(kind.name))
            } else {
                Err(format!("{} has no kind {name}", mode.name()))
            }
        }
    }
}

/// Options that contradict each other are refused rather than weighed.
fn check_together(said: &Said, only: &Only) -> Result<(), String> {
    let programs = said.programs.len();
    if programs > 2 {
        return Err(format!(
            "at most two programs, not {programs}; quote a program with its words"
        ));
    }
    if programs == 0 && said.write.is_none() {
        return Err("no program is given".to_string());
    }
    if said.recorded.is_some() && (programs != 1 || said.write.is_some() || said.full) {
        return Err(
            "--recorded goes with one program, and neither with --write nor with --full"
                .to_string(),
        );
    }
    if said.full && (!matches!(only, Only::All) || programs == 0) {
        return Err("--full goes with a program and not with --only".to_string());
    }
    if matches!(only, Only::Exhaustive) && said.exhaustive == Some(false) {
        return Err("--only exhaustive and --no-exhaustive contradict each other".to_string());
    }
    Ok(())
}

/// A full run demands refusals that come about only on stores which these commands make.
const WANTED_BY_FULL: [&str; 3] = ["var", "post", "open"];

fn vocabulary_of(said: &Said, mode: Mode) -> Result<Vocabulary, String> {
    let Some(list) = &said.commands else {
        return Ok(Vocabulary::whole(mode));
    };
    let vocabulary = Vocabulary::of_list(mode, list)?;
    if said.recorded.is_some() {
        return Err("--commands does not go with --recorded".to_string());
    }
    match WANTED_BY_FULL.iter().find(|name| !vocabulary.has(name)) {
        Some(missing) if said.full => Err(format!(
            "--full goes only with --commands that list {missing}"
        )),
        _ => Ok(vocabulary),
    }
}

/// The help text: the usage, the kinds of session and the refusals.
pub fn help() -> String {
    let kinds: String = KINDS
        .iter()
        .map(|kind| format!("  {:<12}{}\n", kind.name, kind.about))
        .collect();
    let refusals = full::about_refusals();
    format!(
        "{USAGE}\nThe kinds of session:\n\n{kinds}  {EXHAUSTIVE:<12}every sequence of three posts\n\
        \nThe refusals that --full demands, each with the commands that can give it:\n\n{refusals}"
    )
}

#[cfg(test)]
mod tests {
    use super::*;

    fn parsed(text: &str) -> Result<Options, String> {
        parse(text.split(' ').map(str::to_string))
            .map(|options| options.expect("no help asked for"))
    }

    #[test]
    fn a_full_run_has_its_own_lengths() {
        let options = parsed("--full a b").unwrap();
        assert_eq!(
            (options.lines, options.sessions, options.exhaustive),
            (2_000_000, 5_000, true)
        );
        assert!(!parsed("--full --no-exhaustive a b").unwrap().exhaustive);
        assert_eq!(parsed("a b").unwrap().lines, 100_000);
        assert_eq!(parsed("--sessions 3 a b").unwrap().lines, 0);
    }

    #[test]
    fn what_makes_no_sense_is_refused() {
        for text in [
            "--lines",
            "--lines x a b",
            "--mode other a b",
            "--only other a b",
            "--only rooms a b",
            "--frob a b",
            "a b c",
            "--full",
            "--full --only small a b",
            "--recorded d a b",
            "--only exhaustive --no-exhaustive a b",
            "--commands",
            "--commands frob a b",
            "--commands post,,open a b",
            "--commands state a b",
            "--commands post --recorded d a",
            "--full --commands var,post a b",
        ] {
            assert!(parsed(text).is_err(), "{text}");
        }
        assert!(parsed("--mode callscript --only rooms -- a b").is_ok());
        assert!(parsed("--write d").is_ok());
        assert!(parsed("--commands state,post a b").is_ok());
        assert!(parsed("--full --commands var,post,open a b").is_ok());
    }
}
