//! Chang-Roberts (AsynchLCR of Lynch, Distributed Algorithms, 15.1.1): a node passes on only
//! identities greater than its own; whose identity comes back is the leader.

use super::{Algorithm, Sends};
use crate::names::{NodeId, Side};
use std::cmp::Ordering;

pub struct Chang {
    me: NodeId,
    decision: Option<NodeId>,
}

impl Algorithm for Chang {
    type Message = NodeId;

    const TWO_WAY: bool = false;

    fn start(me: NodeId) -> (Chang, Sends<NodeId>) {
        (Chang { me, decision: None }, Sends::to_right(me))
    }

    fn receive(&mut self, side: Side, identity: NodeId) -> Sends<NodeId> {
        if side == Side::Right {
            return Sends::nothing();
        }
        match identity.cmp(&self.me) {
            Ordering::Greater => return Sends::to_right(identity),
            Ordering::Equal => self.decision = Some(self.me),
            Ordering::Less => {}
        }
        Sends::nothing()
    }

    fn decision(&self) -> Option<NodeId> {
        self.decision
    }
}
