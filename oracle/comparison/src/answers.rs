//! A program's output, cut into one block for each line of the session.

/// One answer: its lines, LFs included. Lines that follow a numbered line and bear no number belong
/// to it.
#[derive(Clone, Copy, PartialEq, Eq, Debug)]
pub struct Answer<'a> {
    pub number: Option<u64>,
    pub bytes: &'a [u8],
}

#[derive(Clone, Copy, PartialEq, Eq, Debug)]
pub enum Said<'a> {
    Ok,
    Refused(u64),
    Stopped(&'a [u8]),
    Other,
}

impl<'a> Answer<'a> {
    pub fn lines(&self) -> usize {
        self.bytes.split_inclusive(|&byte| byte == b'\n').count()
    }

    pub fn said(&self) -> Said<'a> {
        let first = self
            .bytes
            .split(|&byte| byte == b'\n')
            .next()
            .unwrap_or(&[]);
        let mut fields = first.split(|&byte| byte == b'\t').skip(1);
        match (fields.next(), fields.next(), fields.next()) {
            (Some(b"ok"), _, _) => Said::Ok,
            (Some(b"refused"), Some(number), None) => {
                number_of(number).map_or(Said::Other, Said::Refused)
            }
            (Some(b"stopped"), Some(name), None) => Said::Stopped(name),
            _ => Said::Other,
        }
    }
}

/// Cuts an output into answers. Lines before the first number make an answer with no number.
pub fn answers_of(output: &[u8]) -> Vec<Answer<'_>> {
    let mut answers = Vec::new();
    let (mut start, mut end, mut number) = (0, 0, None);
    for line in output.split_inclusive(|&byte| byte == b'\n') {
        let found = leading_number(line);
        if found.is_some() {
            if end > start {
                answers.push(Answer {
                    number,
                    bytes: &output[start..end],
                });
            }
            (start, number) = (end, found);
        }
        end += line.len();
    }
    if end > start {
        answers.push(Answer {
            number,
            bytes: &output[start..end],
        });
    }
    answers
}

fn leading_number(line: &[u8]) -> Option<u64> {
    let first = line.split(|&byte| byte == b'\t' || byte == b'\n').next()?;
    number_of(first)
}

fn number_of(digits: &[u8]) -> Option<u64> {
    let all_digits = !digits.is_empty() && digits.iter().all(u8::is_ascii_digit);
    if !all_digits {
        return None;
    }
    std::str::from_utf8(digits).ok()?.parse().ok()
}

#[cfg(test)]
mod tests {
    use super::*;

    #[test]
    fn lines_without_a_number_belong_to_the_answer_before_them() {
        let output = b"1\tok\ncheckpoint\t0\ncount\t0\n2\tok\t1\n3\trefused\t7\n";
        let answers = answers_of(output);
        let numbers: Vec<_> = answers.iter().map(|answer| answer.number).collect();
        assert_eq!(numbers, [Some(1), Some(2), Some(3)]);
        assert_eq!(answers[0].bytes, b"1\tok\ncheckpoint\t0\ncount\t0\n");
        assert_eq!(answers[0].lines(), 3);
        assert_eq!(answers[2].bytes, b"3\trefused\t7\n");
    }

    #[test]
    fn lines_before_the_first_number_are_kept() {
        let answers = answers_of(b"hello\n1\tok");
        assert_eq!(
            answers[0],
            Answer {
                number: None,
                bytes: b"hello\n"
            }
        );
        assert_eq!(
            answers[1],
            Answer {
                number: Some(1),
                bytes: b"1\tok"
            }
        );
        assert!(answers_of(b"").is_empty());
    }

    #[test]
    fn what_was_said_is_read_from_the_first_line() {
        let said = |bytes| {
            Answer {
                number: Some(1),
                bytes,
            }
            .said()
        };
        assert_eq!(said(b"1\tok\n"), Said::Ok);
        assert_eq!(said(b"1\tok\t5\nentry\t1\n"), Said::Ok);
        assert_eq!(said(b"1\trefused\t14\n"), Said::Refused(14));
        assert_eq!(
            said(b"1\tstopped\tstep-past-the-end\n"),
            Said::Stopped(b"step-past-the-end")
        );
        assert_eq!(said(b"1\trefused\tx\n"), Said::Other);
        assert_eq!(said(b"1\n"), Said::Other);
    }
}
