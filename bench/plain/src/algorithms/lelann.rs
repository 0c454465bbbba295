//! LeLann, "Distributed systems: towards a formal approach", 1977: every identity goes round
//! the ring once, and each node takes the greatest of all that it saw.

use super::{Algorithm, Sends};
use crate::names::{NodeId, Side};

pub struct LeLann {
    me: NodeId,
    seen: Vec<NodeId>,
    decision: Option<NodeId>,
}

impl Algorithm for LeLann {
    type Message = NodeId;

    const TWO_WAY: bool = false;

    fn start(me: NodeId) -> (LeLann, Sends<NodeId>) {
        (
            LeLann {
                me,
                seen: Vec::new(),
                decision: None,
            },
            Sends::to_right(me),
        )
    }

    fn receive(&mut self, side: Side, identity: NodeId) -> Sends<NodeId> {
        if side == Side::Right {
            return Sends::nothing();
        }
        if identity != self.me {
            self.seen.push(identity);
            return Sends::to_right(identity);
        }
        if self.decision.is_none() {
            self.decision = self.seen.iter().copied().chain([self.me]).max();
        }
        Sends::nothing()
    }

    fn decision(&self) -> Option<NodeId> {
        self.decision
    }
}
