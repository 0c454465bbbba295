//! What was asked and answered, in order.

#![expect(
    dead_code,
    reason = "what is kept is never read: only its cost is measured"
)]

use crate::grammar::Event;
use crate::names::NodeId;
use crate::refusal::Refusal;
use crate::reply::Reply;

/// What a reply says, without the lists, which the commands before it give.
pub enum Outcome {
    Done,
    Term(u16),
    Leader(u16, NodeId),
    Undecided(u16),
    Listed,
    Refused(Refusal),
}

/// One command of a session.
pub struct Entry {
    pub session: u32,
    pub event: Event,
    pub outcome: Outcome,
}

impl Outcome {
    /// What there is to keep of a reply to a client.
    pub fn of(reply: &Reply<'_>) -> Outcome {
        match reply {
            Reply::Term(term) => Outcome::Term(*term as u16),
            Reply::Leader { term, leader } => Outcome::Leader(*term as u16, *leader),
            Reply::Undecided(term) => Outcome::Undecided(*term as u16),
            Reply::Members(_) | Reply::Terms(_) | Reply::Groups(_) => Outcome::Listed,
            Reply::Refused(refusal) => Outcome::Refused(*refusal),
            _ => Outcome::Done,
        }
    }
}
