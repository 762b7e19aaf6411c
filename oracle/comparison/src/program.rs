//! Running a program on a session: bytes in, bytes out, and how it ended.

use std::io::{self, Read, Write};
use std::os::unix::process::ExitStatusExt;
use std::process::{Child, Command, ExitStatus, Stdio};
use std::sync::mpsc::{self, Receiver};
use std::sync::{Arc, Mutex};
use std::thread;
use std::time::{Duration, Instant};

/// More than any honest answer to a session; a program that writes more is ended.
const OUTPUT_LIMIT: usize = 256 << 20;

/// How much of standard error is kept, to be shown where a program ends badly.
const COMPLAINT_LIMIT: usize = 2000;

#[derive(Clone, Copy, PartialEq, Eq, Debug)]
pub enum Ending {
    Status(i32),
    Signal(i32),
    TimeLimit,
    OutputLimit,
}

impl Ending {
    pub fn describe(self) -> String {
        match self {
            Ending::Status(status) => format!("ended with status {status}"),
            Ending::Signal(signal) => format!("was ended by signal {signal}"),
            Ending::TimeLimit => "did not end within the time limit".to_string(),
            Ending::OutputLimit => "wrote without end".to_string(),
        }
    }
}

pub struct Run {
    pub output: Vec<u8>,
    pub ending: Ending,
    pub complaint: Vec<u8>,
}

pub struct Program {
    pub text: String,
    words: Vec<String>,
}

impl Program {
    /// A program from its command line: words parted by spaces, quotes as in a shell.
    pub fn from_command_line(text: &str) -> Result<Program, String> {
        let words = split_words(text)
            .ok_or_else(|| format!("a quote or a backslash stands alone in: {text}"))?;
        if words.is_empty() {
            return Err("a program's command line is empty".to_string());
        }
        Ok(Program {
            text: text.to_string(),
            words,
        })
    }

    /// Runs the program. An error means that it could not be started.
    pub fn run(&self, input: &Arc<[u8]>, limit: Duration) -> Result<Run, String> {
        let deadline = Instant::now() + limit;
        let mut child = self
            .start()
            .map_err(|error| format!("cannot start {}: {error}", self.words[0]))?;
        feed(&mut child, Arc::clone(input));
        let complaint = Pipe::drain(
            child.stderr.take().expect("standard error is piped"),
            COMPLAINT_LIMIT,
            true,
        );
        let output = Pipe::drain(
            child.stdout.take().expect("standard output is piped"),
            OUTPUT_LIMIT,
            false,
        );
        let in_time = output.wait_until(deadline);
        let status = if in_time && !output.is_full() {
            wait_until(&mut child, deadline)
        } else {
            None
        };
        let ending = match status {
            Some(status) => ending_of(status),
            None if output.is_full() => Ending::OutputLimit,
            None => Ending::TimeLimit,
        };
        if status.is_none() {
            end(&mut child);
        } else {
            complaint.wait_until(deadline);
        }
        Ok(Run {
            output: output.take(),
            ending,
            complaint: complaint.take(),
        })
    }

    fn start(&self) -> io::Result<Child> {
        Command::new(&self.words[0])
            .args(&self.words[1..])
            .stdin(Stdio::piped())
            .stdout(Stdio::piped())
            .stderr(Stdio::piped())
            .spawn()
    }
}

/// Runs both programs on the session at the same time.
pub fn run_both(
    programs: [&Program; 2],
    input: &Arc<[u8]>,
    limit: Duration,
) -> Result<[Run; 2], String> {
    thread::scope(|scope| {
        let first = scope.spawn(|| programs[0].run(input, limit));
        let second = programs[1].run(input, limit)?;
        let first = first.join().expect("running a program does not panic")?;
        Ok([first, second])
    })
}

/// Writes the input from its own thread, so that a program that answers early cannot block against
/// us. A program that stops reading is seen by its ending, so a failed write is no error here.
fn feed(child: &mut Child, input: Arc<[u8]>) {
    let mut stdin = child.stdin.take().expect("standard input is piped");
    thread::spawn(move || {
        let _ = stdin.write_all(&input);
    });
}

/// What a thread has read so far from a program. The thread is never joined: a grandchild may hold
/// the pipe open.
struct Pipe {
    bytes: Arc<Mutex<Vec<u8>>>,
    done: Receiver<()>,
    limit: usize,
}

impl Pipe {
    fn drain(mut source: impl Read + Send + 'static, limit: usize, past_the_limit: bool) -> Pipe {
        let bytes = Arc::new(Mutex::new(Vec::new()));
        let (sender, done) = mpsc::channel();
        let shared = Arc::clone(&bytes);
        thread::spawn(move || {
            let mut buffer = vec![0; 1 << 16];
            while let Ok(count @ 1..) = source.read(&mut buffer) {
                let mut kept = shared.lock().expect("no holder of the lock panics");
                let room = limit - kept.len();
                kept.extend_from_slice(&buffer[..count.min(room)]);
                if kept.len() == limit && !past_the_limit {
                    break;
                }
            }
            let _ = sender.send(());
        });
        Pipe { bytes, done, limit }
    }

    fn wait_until(&self, deadline: Instant) -> bool {
        self.done
            .recv_timeout(deadline.saturating_duration_since(Instant::now()))
            .is_ok()
    }

    fn is_full(&self) -> bool {
        self.bytes
            .lock()
            .expect("no holder of the lock panics")
            .len()
            == self.limit
    }

    fn take(&self) -> Vec<u8> {
        std::mem::take(&mut self.bytes.lock().expect("no holder of the lock panics"))
    }
}

/// Waits for a program that has closed its output, which is nearly always ending already.
fn wait_until(child: &mut Child, deadline: Instant) -> Option<ExitStatus> {
    let mut pause = Duration::from_micros(20);
    loop {
        if let Ok(Some(status)) = child.try_wait() {
            return Some(status);
        }
        if Instant::now() >= deadline {
            return None;
        }
        thread::sleep(pause);
        pause = (pause * 2).min(Duration::from_millis(10));
    }
}

fn end(child: &mut Child) {
    let _ = child.kill();
    let _ = child.wait();
}

fn ending_of(status: ExitStatus) -> Ending {
    match (status.code(), status.signal()) {
        (Some(code), _) => Ending::Status(code),
        (None, Some(signal)) => Ending::Signal(signal),
        (None, None) => Ending::Status(-1),
    }
}

/// The words of a command line, or none if a quote is not closed. A backslash counts only outside
/// quotes.
fn split_words(text: &str) -> Option<Vec<String>> {
    let mut words = Vec::new();
    let mut word: Option<String> = None;
    let mut quote = None;
    let mut characters = text.chars();
    while let Some(character) = characters.next() {
        match (quote, character) {
            (Some(open), _) if character == open => quote = None,
            (None, '\'' | '"') => {
                quote = Some(character);
                word.get_or_insert_default();
            }
            (None, '\\') => word.get_or_insert_default().push(characters.next()?),
            (None, ' ' | '\t' | '\n') => words.extend(word.take()),
            _ => word.get_or_insert_default().push(character),
        }
    }
    words.extend(word);
    quote.is_none().then_some(words)
}

#[cfg(test)]
mod tests {
    use super::*;

    const LIMIT: Duration = Duration::from_secs(20);

    fn run(command_line: &str, input: &[u8], limit: Duration) -> Run {
        Program::from_command_line(command_line)
            .unwrap()
            .run(&Arc::from(input), limit)
            .unwrap()
    }

    #[test]
    fn words_are_split_as_a_shell_would() {
        assert_eq!(
            split_words("a  'b c'd \"e'f\" ''").unwrap(),
            ["a", "b cd", "e'f", ""]
        );
        assert_eq!(split_words("a\\ b\\'c 'd\\e'").unwrap(), ["a b'c", "d\\e"]);
        assert_eq!(split_words("  ").unwrap(), Vec::<String>::new());
        assert!(split_words("a 'b").is_none());
        assert!(split_words("a \\").is_none());
        assert!(Program::from_command_line(" ").is_err());
    }

    #[test]
    fn a_large_session_does_not_block() {
        let input = b"open\n".repeat(1_000_000);
        let run = run("cat", &input, LIMIT);
        assert_eq!(run.ending, Ending::Status(0));
        assert!(run.output == input);
    }

    #[test]
    fn a_program_need_not_read_its_input() {
        let input = b"open\n".repeat(1_000_000);
        let run = run("sh -c 'echo done; echo why >&2; exit 3'", &input, LIMIT);
        assert_eq!(
            (run.ending, run.output, run.complaint),
            (Ending::Status(3), b"done\n".to_vec(), b"why\n".to_vec())
        );
    }

    #[test]
    fn endings_are_told_apart() {
        assert_eq!(
            run("sh -c 'kill -9 $$'", b"", LIMIT).ending,
            Ending::Signal(9)
        );
        let hanging = run(
            "sh -c 'echo begun; exec sleep 50'",
            b"",
            Duration::from_millis(300),
        );
        assert_eq!(
            (hanging.ending, hanging.output),
            (Ending::TimeLimit, b"begun\n".to_vec())
        );
        let closed = run(
            "sh -c 'exec >&-; exec sleep 50'",
            b"",
            Duration::from_millis(300),
        );
        assert_eq!(closed.ending, Ending::TimeLimit);
    }

    #[test]
    fn a_program_that_is_not_there_is_an_error() {
        let program = Program::from_command_line("./no-such-program trailscript").unwrap();
        let error = program.run(&Arc::from(&b""[..]), LIMIT).err().unwrap();
        assert!(error.contains("./no-such-program"), "{error}");
    }
}
