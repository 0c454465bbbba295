//! One reply line for each input line.

use crate::grammar::parse_event;
use crate::lines::{Filled, Line, LineFault, LineReader};
use crate::refusal::Refusal;
use crate::reply::Reply;
use crate::service::Service;
use crate::world::Begin;
use std::io::{Read, Write};

/// Replies are written when this many bytes of them are held, and before each read.
const REPLY_BUFFER: usize = 1 << 16;

/// Answers every line of the reader by a new service; the answer is their number. At most `reads`
/// reads are made.
pub fn replay<R: Read, W: Write>(
    begin: Begin,
    reader: R,
    writer: W,
    reads: u64,
) -> Result<u64, LineFault> {
    let mut lines = LineReader::new(reader, reads);
    let mut session = Session {
        service: Service::new(begin),
        writer,
        replies: Vec::new(),
        count: 0,
    };
    loop {
        while let Some(line) = lines.held_line() {
            session.answer(line)?;
        }
        session.write()?;
        if lines.fill()? == Filled::End {
            break;
        }
    }
    if let Some(line) = lines.last_line() {
        session.answer(line)?;
    }
    session.write()?;
    Ok(session.count)
}

/// The service, with the replies that are not written yet.
struct Session<W> {
    service: Service,
    writer: W,
    replies: Vec<u8>,
    count: u64,
}

impl<W: Write> Session<W> {
    fn answer(&mut self, line: Line<'_>) -> Result<(), LineFault> {
        let event = match line {
            Line::Short(bytes) => parse_event(bytes),
            Line::Long => None,
        };
        let reply = match event {
            Some(event) => self.service.step(event),
            None => Reply::Refused(Refusal::BadLine),
        };
        reply.print(&mut self.replies);
        self.count += 1;
        if self.replies.len() >= REPLY_BUFFER {
            self.write()?;
        }
        Ok(())
    }

    fn write(&mut self) -> Result<(), LineFault> {
        self.writer
            .write_all(&self.replies)
            .map_err(|_| LineFault::Write)?;
        self.replies.clear();
        self.writer.flush().map_err(|_| LineFault::Write)
    }
}

#[cfg(test)]
mod tests {
    use super::*;
    use crate::keep::Journals;
    use crate::world;
    use std::io;

    const FIRST_RUN: &[u8] = b"create a chang\njoin a 3\njoin a 1\njoin a 2\nstart a\npending a\n\
        drain a 100\nwho a 1\n";

    /// What is written for an input, and the answer.
    fn replayed(reader: impl Read, reads: u64) -> (String, Result<u64, LineFault>) {
        let mut written = Vec::new();
        let answer = replay(world::begin::<Journals>, reader, &mut written, reads);
        (String::from_utf8(written).unwrap(), answer)
    }

    /// A reader that gives its text by one byte per call.
    struct ByteByByte(&'static [u8]);

    impl Read for ByteByByte {
        fn read(&mut self, buffer: &mut [u8]) -> io::Result<usize> {
            self.0.read(&mut buffer[..1])
        }
    }

    /// A reader that is interrupted and then fails.
    struct Failing {
        interrupted: bool,
    }

    impl Read for Failing {
        fn read(&mut self, _: &mut [u8]) -> io::Result<usize> {
            let first = !std::mem::replace(&mut self.interrupted, true);
            Err(if first {
                io::ErrorKind::Interrupted
            } else {
                io::ErrorKind::Other
            }
            .into())
        }
    }

    /// A writer that takes one byte per call and fails at its fifth call.
    #[derive(Default)]
    struct FourBytes {
        written: Vec<u8>,
    }

    impl Write for FourBytes {
        fn write(&mut self, bytes: &[u8]) -> io::Result<usize> {
            if self.written.len() == 4 {
                return Err(io::ErrorKind::Other.into());
            }
            self.written.push(bytes[0]);
            Ok(1)
        }

        fn flush(&mut self) -> io::Result<()> {
            Ok(())
        }
    }

    #[test]
    fn a_first_run() {
        let replies = "ok\nok\nok\nok\nterm 1\npending 3\ndrained 8 left 0\nleader 1 3\n";
        assert_eq!(replayed(FIRST_RUN, 10), (replies.into(), Ok(8)));
        assert_eq!(
            replayed(ByteByByte(FIRST_RUN), 1000),
            (replies.into(), Ok(8))
        );
    }

    #[test]
    fn a_last_line_without_its_end_is_a_line() {
        assert_eq!(
            replayed(&b"create a chang\njoin a 3"[..], 10),
            ("ok\nok\n".into(), Ok(2))
        );
        assert_eq!(replayed(&b""[..], 10), (String::new(), Ok(0)));
    }

    #[test]
    fn whole_lines_are_answered_before_a_failing_read() {
        let text = &b"create a chang\njoin a 3\njoi"[..];
        let reader = text.chain(Failing { interrupted: false });
        assert_eq!(
            replayed(reader, 10),
            ("ok\nok\n".into(), Err(LineFault::Read))
        );
    }

    #[test]
    fn reads_are_counted() {
        let reader = || ByteByByte(b"create a chang\n");
        assert_eq!(
            replayed(reader(), 15),
            ("ok\n".into(), Err(LineFault::Endless))
        );
        assert_eq!(replayed(reader(), 16), ("ok\n".into(), Ok(1)));
        let interrupted = Failing { interrupted: false };
        assert_eq!(
            replayed(interrupted, 1),
            (String::new(), Err(LineFault::Endless))
        );
    }

    #[test]
    fn a_failing_writer_has_a_prefix_of_the_replies() {
        let mut writer = FourBytes::default();
        let answer = replay(world::begin::<Journals>, FIRST_RUN, &mut writer, 10);
        assert_eq!(answer, Err(LineFault::Write));
        assert_eq!(writer.written, b"ok\no");
    }
}
