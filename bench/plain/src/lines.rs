//! Lines from a reader.

use std::fmt;
use std::io::{ErrorKind, Read};

/// The greatest length of a line without its LF.
pub const LINE_LIMIT: usize = 128;

const BUFFER: usize = 1 << 16;

/// One line of the input, without its LF.
#[derive(Debug, PartialEq, Eq)]
pub enum Line<'a> {
    Short(&'a [u8]),
    /// More bytes than a line may have; they are dropped.
    Long,
}

/// What a read brought.
#[derive(Debug, PartialEq, Eq)]
pub enum Filled {
    More,
    End,
}

/// Why a replay ended before its input did.
#[derive(Clone, Copy, Debug, PartialEq, Eq)]
pub enum LineFault {
    /// The reader failed.
    Read,
    /// All reads were made and no end came.
    Endless,
    /// The writer failed.
    Write,
}

impl fmt::Display for LineFault {
    fn fmt(&self, f: &mut fmt::Formatter<'_>) -> fmt::Result {
        f.write_str(match self {
            LineFault::Read => "read failed",
            LineFault::Endless => "endless input",
            LineFault::Write => "write failed",
        })
    }
}

/// A buffer over a reader, which is read from only by `fill`.
pub struct LineReader<R> {
    reader: R,
    buffer: Box<[u8]>,
    start: usize,
    end: usize,
    too_long: bool,
    reads: u64,
}

impl<R: Read> LineReader<R> {
    /// Reads at most `reads` times.
    pub fn new(reader: R, reads: u64) -> LineReader<R> {
        let buffer = vec![0; BUFFER].into_boxed_slice();
        LineReader {
            reader,
            buffer,
            start: 0,
            end: 0,
            too_long: false,
            reads,
        }
    }

    /// The next whole line of what was read already.
    pub fn held_line(&mut self) -> Option<Line<'_>> {
        let held = &self.buffer[self.start..self.end];
        let length = held.iter().position(|&byte| byte == b'\n')?;
        self.start += length + 1;
        let too_long = std::mem::take(&mut self.too_long);
        Some(if too_long || length > LINE_LIMIT {
            Line::Long
        } else {
            Line::Short(&held[..length])
        })
    }

    /// The rest behind the last LF, to be asked for at the end of the input.
    pub fn last_line(&mut self) -> Option<Line<'_>> {
        let held = &self.buffer[self.start..self.end];
        self.start = self.end;
        if std::mem::take(&mut self.too_long) || held.len() > LINE_LIMIT {
            return Some(Line::Long);
        }
        (!held.is_empty()).then_some(Line::Short(held))
    }

    /// Reads once more, behind what is held; an interrupted read is tried again.
    pub fn fill(&mut self) -> Result<Filled, LineFault> {
        self.make_room();
        loop {
            if self.reads == 0 {
                return Err(LineFault::Endless);
            }
            self.reads -= 1;
            match self.reader.read(&mut self.buffer[self.end..]) {
                Ok(0) => return Ok(Filled::End),
                Ok(count) => {
                    self.end += count;
                    return Ok(Filled::More);
                }
                Err(error) if error.kind() == ErrorKind::Interrupted => {}
                Err(_) => return Err(LineFault::Read),
            }
        }
    }

    /// Moves the cut line to the front, or drops it where it is too long already.
    fn make_room(&mut self) {
        if self.end - self.start > LINE_LIMIT {
            self.too_long = true;
            self.start = self.end;
        }
        self.buffer.copy_within(self.start..self.end, 0);
        self.end -= self.start;
        self.start = 0;
    }
}

#[cfg(test)]
mod tests {
    use super::*;

    /// All lines of an input, each as its length, with `None` for a long one.
    fn lengths(input: &[u8]) -> Vec<Option<usize>> {
        let mut reader = LineReader::new(input, 1000);
        let mut lengths = Vec::new();
        let length = |line: Line| match line {
            Line::Short(bytes) => Some(bytes.len()),
            Line::Long => None,
        };
        loop {
            while let Some(line) = reader.held_line() {
                lengths.push(length(line));
            }
            if reader.fill().unwrap() == Filled::End {
                lengths.extend(reader.last_line().map(length));
                return lengths;
            }
        }
    }

    #[test]
    fn a_line_has_at_most_128_bytes() {
        let line = |length| vec![b'x'; length];
        assert_eq!(lengths(&line(128)), [Some(128)]);
        assert_eq!(lengths(&line(129)), [None]);
        assert_eq!(
            lengths(&[line(128), vec![b'\n'], line(1)].concat()),
            [Some(128), Some(1)]
        );
        assert_eq!(
            lengths(&[line(129), vec![b'\n'], line(1)].concat()),
            [None, Some(1)]
        );
        assert_eq!(
            lengths(&[line(200_000), vec![b'\n'], line(3)].concat()),
            [None, Some(3)]
        );
        assert_eq!(lengths(&line(200_000)), [None]);
    }

    #[test]
    fn the_last_line_needs_no_end() {
        assert_eq!(lengths(b""), []);
        assert_eq!(lengths(b"\n"), [Some(0)]);
        assert_eq!(lengths(b"ab\nc"), [Some(2), Some(1)]);
        assert_eq!(lengths(b"ab\nc\n"), [Some(2), Some(1)]);
        assert_eq!(lengths(b"\n\n"), [Some(0), Some(0)]);
    }
}
