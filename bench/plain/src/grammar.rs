//! The lines that ask: what a line of bytes spells.

use crate::algorithms::Kind;
use crate::names::{GroupName, NodeId, NodeNo, Side};

/// The greatest number that `drain` takes.
const COUNT_LIMIT: u64 = 1_000_000_000;

/// What one line asks for.
#[derive(Clone, Copy, Debug, PartialEq, Eq)]
pub enum Event {
    Create(GroupName, Kind),
    Join(GroupName, NodeId),
    Leave(GroupName, NodeNo),
    Start(GroupName),
    Who(GroupName, NodeNo),
    Members(GroupName),
    Terms(GroupName),
    Groups,
    Deliver(GroupName, NodeNo, Side),
    Cut(GroupName, NodeNo, Side),
    Pending(GroupName),
    Drain(GroupName, u64),
}

/// The event that a line without its LF spells, `None` where it spells none.
pub fn parse_event(line: &[u8]) -> Option<Event> {
    let mut words = Words { rest: Some(line) };
    let event = match words.next()? {
        b"create" => Event::Create(words.group()?, words.kind()?),
        b"join" => Event::Join(words.group()?, words.node()?),
        b"leave" => Event::Leave(words.group()?, words.number()?),
        b"start" => Event::Start(words.group()?),
        b"who" => Event::Who(words.group()?, words.number()?),
        b"members" => Event::Members(words.group()?),
        b"terms" => Event::Terms(words.group()?),
        b"groups" => Event::Groups,
        b"deliver" => Event::Deliver(words.group()?, words.number()?, words.side()?),
        b"cut" => Event::Cut(words.group()?, words.number()?, words.side()?),
        b"pending" => Event::Pending(words.group()?),
        b"drain" => Event::Drain(words.group()?, words.count()?),
        _ => return None,
    };
    words.rest.is_none().then_some(event)
}

/// The words of a line, cut at each single space; a word may be empty and is then refused by
/// whoever reads it.
struct Words<'a> {
    rest: Option<&'a [u8]>,
}

impl<'a> Words<'a> {
    fn next(&mut self) -> Option<&'a [u8]> {
        let line = self.rest?;
        let Some(space) = line.iter().position(|&byte| byte == b' ') else {
            self.rest = None;
            return Some(line);
        };
        self.rest = Some(&line[space + 1..]);
        Some(&line[..space])
    }

    fn group(&mut self) -> Option<GroupName> {
        GroupName::from_bytes(self.next()?)
    }

    fn kind(&mut self) -> Option<Kind> {
        Kind::from_word(self.next()?)
    }

    fn number(&mut self) -> Option<NodeNo> {
        NodeNo::new(short(self.next()?)?)
    }

    /// A number, and behind a slash a weight that isn't 0.
    fn node(&mut self) -> Option<NodeId> {
        let word = self.next()?;
        let Some(slash) = word.iter().position(|&byte| byte == b'/') else {
            return NodeId::new(short(word)?);
        };
        let weight = u16::try_from(decimal(&word[slash + 1..])?).ok()?;
        if weight == 0 {
            return None;
        }
        NodeId::weighted(short(&word[..slash])?, weight)
    }

    fn count(&mut self) -> Option<u64> {
        decimal(self.next()?).filter(|&number| number <= COUNT_LIMIT)
    }

    fn side(&mut self) -> Option<Side> {
        match self.next()? {
            b"left" => Some(Side::Left),
            b"right" => Some(Side::Right),
            _ => None,
        }
    }
}

/// A decimal number of 32 bits.
fn short(word: &[u8]) -> Option<u32> {
    u32::try_from(decimal(word)?).ok()
}

/// A decimal number of at most ten digits, without sign and without leading zeros.
fn decimal(word: &[u8]) -> Option<u64> {
    let leading_zero = word.len() > 1 && word[0] == b'0';
    let digits = word.iter().all(u8::is_ascii_digit);
    if word.is_empty() || word.len() > 10 || leading_zero || !digits {
        return None;
    }
    Some(
        word.iter()
            .fold(0, |number, digit| 10 * number + u64::from(digit - b'0')),
    )
}

#[cfg(test)]
mod tests {
    use super::*;

    #[test]
    fn numbers_have_one_spelling() {
        assert_eq!(decimal(b"0"), Some(0));
        assert_eq!(decimal(b"4294967295"), Some(4_294_967_295));
        for word in [
            &b""[..],
            b"00",
            b"07",
            b"+7",
            b"-7",
            b"1e3",
            b" 7",
            b"12345678901",
        ] {
            assert_eq!(decimal(word), None);
        }
    }

    #[test]
    fn a_line_has_its_words_and_no_more() {
        assert_eq!(parse_event(b"groups"), Some(Event::Groups));
        for line in [
            &b""[..],
            b" ",
            b"groups ",
            b" groups",
            b"groups a",
            b"start",
            b"start a b",
            b"start  a",
            b"join a",
            b"join a 7 ",
            b"join a 7\r",
            b"drain a 1000000001",
            b"join a 5/0",
            b"join a 5/",
            b"join a 5/07",
            b"join a 5/65536",
            b"join a 5/7/8",
            b"join a /7",
            b"join a 0/7",
            b"leave a 5/7",
            b"who a 1/9",
            b"deliver a 5/7 left",
        ] {
            assert_eq!(parse_event(line), None);
        }
        assert!(parse_event(b"drain a 1000000000").is_some());
        assert!(parse_event(b"join a 5/65535").is_some());
    }
}
