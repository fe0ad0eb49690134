//! The lines of the input.

use std::io::{self, BufRead, Read};

/// Most bytes of a line, without its newline.
const MOST_BYTES: usize = 4_096;

/// A line without its newline.
pub enum Line {
    Whole(Vec<u8>),
    TooLong,
}

/// All lines, also those that are too long, of which only the first bytes are kept.
/// What follows the last newline is a line unless it is empty.
pub struct Lines<R>(pub R);

impl<R: BufRead> Lines<R> {
    fn read(&mut self) -> io::Result<Option<Line>> {
        let mut text = Vec::new();
        let with_newline = MOST_BYTES as u64 + 1;
        let mut first = self.0.by_ref().take(with_newline);
        if first.read_until(b'\n', &mut text)? == 0 {
            return Ok(None);
        }
        if text.ends_with(b"\n") {
            text.pop();
        } else if text.len() > MOST_BYTES {
            self.0.skip_until(b'\n')?;
            return Ok(Some(Line::TooLong));
        }
        Ok(Some(Line::Whole(text)))
    }
}

impl<R: BufRead> Iterator for Lines<R> {
    type Item = io::Result<Line>;

    fn next(&mut self) -> Option<io::Result<Line>> {
        self.read().transpose()
    }
}
