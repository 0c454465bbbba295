//! What clients ask over and over: who leads the group `a`, of its members in turn; or changes of a group of their own.

use crate::client::{Client, Groups, LEADER, MEMBERS, Place};
use std::io;

/// Which replies are wanted.
#[derive(Clone, Copy, PartialEq, Eq)]
pub enum Wanted {
    /// The leader of the group.
    Leader,
    /// The lines themselves.
    Echo,
    /// That each change was made.
    Changes,
}

/// How many clients have a group of their own.
const GROUPS: usize = 64;

/// Lines that are written at once, and their replies.
pub type Batch = (Vec<u8>, Vec<u8>);

impl Wanted {
    pub fn from_word(word: &str) -> Option<Wanted> {
        match word {
            "leader" => Some(Wanted::Leader),
            "echo" => Some(Wanted::Echo),
            "changes" => Some(Wanted::Changes),
            _ => None,
        }
    }

    /// Makes the group, and waits until each member knows that the last one leads. For changes there is a group for
    /// each client; an echo has no groups.
    pub fn prepare(self, place: &Place) -> io::Result<()> {
        if self == Wanted::Echo {
            return Ok(());
        }
        let mut client = Client::connect(place)?;
        if self == Wanted::Changes {
            let lines: String = (0..GROUPS)
                .map(|group| format!("create g{group} chang\n"))
                .collect();
            return client.expect(lines.as_bytes(), "ok\n".repeat(GROUPS).as_bytes());
        }
        Groups::make(&mut client, &[String::from("a")])?.decide(&mut client)
    }

    /// The batches of so many lines that a client writes in turn, and their replies.
    pub fn batches(self, depth: usize, client: usize) -> Vec<Batch> {
        if self != Wanted::Changes {
            return vec![self.batch(depth, client)];
        }
        let lines: Vec<String> = (0..2 * depth)
            .map(|place| {
                let word = if place % 2 == 0 { "join" } else { "leave" };
                format!("{word} g{} 7\n", client % GROUPS)
            })
            .collect();
        let replies = "ok\n".repeat(depth);
        lines
            .chunks(depth)
            .map(|lines| (lines.concat().into_bytes(), replies.clone().into_bytes()))
            .collect()
    }

    /// So many questions, the first of them about this member, and their replies.
    fn batch(self, depth: usize, first: usize) -> Batch {
        let (mut lines, mut replies) = (Vec::new(), Vec::new());
        for place in 0..depth {
            let member = (first + 7 * place) as u32 % MEMBERS + 1;
            let line = format!("who a {member}\n");
            lines.extend(line.as_bytes());
            replies.extend(match self {
                Wanted::Leader => LEADER,
                Wanted::Echo => line.as_bytes(),
                Wanted::Changes => unreachable!("changes are no questions"),
            });
        }
        (lines, replies)
    }
}
