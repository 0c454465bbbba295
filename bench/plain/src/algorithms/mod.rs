//! The four ring algorithms, each as the state of one node.

mod chang;
mod hirschberg;
mod lelann;
mod peterson;

pub use chang::Chang;
pub use hirschberg::Hirschberg;
pub use lelann::LeLann;
pub use peterson::Peterson;

use crate::names::{NodeId, Side};

/// Which algorithm a group runs.
#[derive(Clone, Copy, Debug, PartialEq, Eq)]
pub enum Kind {
    LeLann,
    Chang,
    Hirschberg,
    Peterson,
}

impl Kind {
    /// The kind that a word of a line names.
    pub fn from_word(word: &[u8]) -> Option<Kind> {
        match word {
            b"lelann" => Some(Kind::LeLann),
            b"chang" => Some(Kind::Chang),
            b"hirschberg" => Some(Kind::Hirschberg),
            b"peterson" => Some(Kind::Peterson),
            _ => None,
        }
    }
}

/// What one step of an algorithm sends: at most one message to each side.
#[derive(Clone, Copy, Debug, PartialEq, Eq)]
pub struct Sends<M> {
    pub left: Option<M>,
    pub right: Option<M>,
}

impl<M> Sends<M> {
    pub fn nothing() -> Sends<M> {
        Sends {
            left: None,
            right: None,
        }
    }

    pub fn to_right(message: M) -> Sends<M> {
        Sends {
            left: None,
            right: Some(message),
        }
    }

    pub fn to(side: Side, message: M) -> Sends<M> {
        match side {
            Side::Left => Sends {
                left: Some(message),
                right: None,
            },
            Side::Right => Sends::to_right(message),
        }
    }
}

impl<M: Copy> Sends<M> {
    pub fn to_both(message: M) -> Sends<M> {
        Sends {
            left: Some(message),
            right: Some(message),
        }
    }
}

/// A ring algorithm: the value is the state of one node.
pub trait Algorithm: Sized + Send {
    type Message: Copy + Send;

    /// Whether it sends to the left.
    const TWO_WAY: bool;

    /// The first state of a node and what it sends at the start.
    fn start(me: NodeId) -> (Self, Sends<Self::Message>);

    /// One receipt from a side.
    fn receive(&mut self, side: Side, message: Self::Message) -> Sends<Self::Message>;

    /// The leader that this node decided by itself.
    fn decision(&self) -> Option<NodeId>;
}
