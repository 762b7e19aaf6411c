//! Lines of any length in constant memory.

use std::io;
use std::io::BufRead;
use std::io::BufReader;
use std::io::ErrorKind;
use std::io::Read;

/// The longest line that can be read, without its LF.
const LONGEST_LINE: usize = 200;

pub(crate) struct Lines<R> {
    input: BufReader<R>,
    line: Vec<u8>,
}

impl<R: Read> Lines<R> {
    pub(crate) fn of(input: R) -> Self {
        Lines {
            input: BufReader::with_capacity(1 << 16, input),
            line: Vec::with_capacity(LONGEST_LINE),
        }
    }

    /// True if the next line has to be waited for.
    pub(crate) fn drained(&self) -> bool {
        self.input.buffer().is_empty()
    }

    /// The next line, none of it if it is too long; or none at the end of the input.
    pub(crate) fn next(&mut self) -> io::Result<Option<Option<&[u8]>>> {
        self.line.clear();
        let mut begun = false;
        let mut fits = true;
        loop {
            let chunk = match self.input.fill_buf() {
                Err(error) if error.kind() == ErrorKind::Interrupted => continue,
                chunk => chunk?,
            };
            if chunk.is_empty() && !begun {
                return Ok(None);
            }
            begun = true;
            let end = chunk.iter().position(|byte| *byte == b'\n');
            let part = &chunk[..end.unwrap_or(chunk.len())];
            fits = fits && part.len() <= LONGEST_LINE - self.line.len();
            if fits {
                self.line.extend_from_slice(part);
            }
            let last = end.is_some() || chunk.is_empty();
            let used = part.len() + usize::from(end.is_some());
            self.input.consume(used);
            if last {
                return Ok(Some(fits.then_some(&self.line)));
            }
        }
    }
}

#[cfg(test)]
mod tests {
    use super::*;

    fn read(input: &[u8]) -> Vec<Option<Vec<u8>>> {
        let mut lines = Lines::of(input);
        let mut all = Vec::new();
        while let Some(line) = lines.next().expect("memory can be read") {
            all.push(line.map(<[u8]>::to_vec));
        }
        all
    }

    fn whole(line: &[u8]) -> Option<Vec<u8>> {
        Some(line.to_vec())
    }

    #[test]
    fn no_bytes_are_no_lines() {
        assert!(read(b"").is_empty());
    }

    #[test]
    fn the_last_line_may_lack_its_end() {
        assert_eq!(read(b"a\nb"), [whole(b"a"), whole(b"b")]);
        assert_eq!(read(b"a\nb\n"), [whole(b"a"), whole(b"b")]);
        assert_eq!(read(b"\n\n"), [whole(b""), whole(b"")]);
    }

    #[test]
    fn a_line_has_at_most_200_bytes() {
        let (longest, too_long) = ([b'x'; 200], [b'x'; 201]);
        assert_eq!(read(&longest), [whole(&longest)]);
        assert_eq!(read(&too_long), [None]);
        let input = [too_long.as_slice(), b"\n", &longest, b"\n"].concat();
        assert_eq!(read(&input), [None, whole(&longest)]);
    }

    #[test]
    fn a_line_longer_than_any_buffer_is_one_line() {
        let input = [vec![b'x'; 1 << 20], b"\ny".to_vec()].concat();
        assert_eq!(read(&input), [None, whole(b"y")]);
    }
}
