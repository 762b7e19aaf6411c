//! A session: the bytes that both programs read.

/// The most bytes that a line may have, its LF not counted.
pub const LINE_LIMIT: usize = 200;

/// The most places that a lent slice may have in callscript.
pub const ROOM_LIMIT: usize = 1024;

pub struct Session {
    pub kind: &'static str,
    pub bytes: Vec<u8>,
}

/// The lines of a session without their LFs. Nothing stands after a final LF.
pub fn lines_of(bytes: &[u8]) -> Vec<&[u8]> {
    bytes
        .split_inclusive(|&byte| byte == b'\n')
        .map(|line| line.strip_suffix(b"\n").unwrap_or(line))
        .collect()
}

#[cfg(test)]
mod tests {
    use super::*;

    #[test]
    fn nothing_stands_after_a_final_line_feed() {
        assert_eq!(lines_of(b"").len(), 0);
        assert_eq!(lines_of(b"open\n"), [b"open"]);
        assert_eq!(
            lines_of(b"open\n\nback\t0"),
            [&b"open"[..], b"", b"back\t0"]
        );
    }
}
