//! One node of a running term: its state, and what it keeps of its packets.

use crate::algorithms::{Algorithm, Sends};
use crate::keep::{Journals, Keep, Record};
use crate::names::{NodeId, Side};

/// What goes over a link: a message of the algorithm, or the announcement of the leader.
#[derive(Clone, Copy, Debug, PartialEq, Eq)]
pub enum Packet<M> {
    Algo(M),
    Leader(NodeId),
}

/// What a node took, and from which side.
#[derive(Clone, Copy, Debug, PartialEq, Eq)]
pub struct Receipt<M> {
    pub side: Side,
    pub packet: Packet<M>,
}

pub struct Node<A: Algorithm, K: Keep = Journals> {
    state: A,
    record: K::Record<A::Message>,
    known: Option<NodeId>,
}

impl<A: Algorithm, K: Keep> Node<A, K> {
    /// The node as it stands when its term starts, with its first sends made.
    pub fn seat(me: NodeId) -> Node<A, K> {
        let (state, sends) = A::start(me);
        let mut node = Node {
            state,
            record: K::Record::default(),
            known: None,
        };
        node.send(sends);
        node
    }

    /// What it keeps.
    #[cfg(test)]
    pub fn record(&self) -> &K::Record<A::Message> {
        &self.record
    }

    /// How many packets were sent to this side and not fetched yet.
    pub fn waiting(&self, side: Side) -> usize {
        self.record.waiting(side)
    }

    /// The oldest packet that waits at this side, which then waits no more.
    pub fn fetch(&mut self, side: Side) -> Option<Packet<A::Message>> {
        self.record.fetch(side)
    }

    /// Takes one packet, with all that the node sends because of it. The answer is the leader,
    /// where this receipt is the first by which the node knows it.
    pub fn take(&mut self, side: Side, packet: Packet<A::Message>) -> Option<NodeId> {
        self.record.take(Receipt { side, packet });
        let leader = match packet {
            Packet::Leader(leader) => Some(leader),
            Packet::Algo(message) => {
                let sends = self.state.receive(side, message);
                self.send(sends);
                self.state.decision()
            }
        };
        self.learn(leader)
    }

    /// The first time that the leader is known it is announced to the right.
    fn learn(&mut self, leader: Option<NodeId>) -> Option<NodeId> {
        if self.known.is_some() {
            return None;
        }
        self.known = leader;
        if let Some(leader) = leader {
            self.record.send(Side::Right, Packet::Leader(leader));
        }
        leader
    }

    fn send(&mut self, sends: Sends<A::Message>) {
        if let Some(message) = sends.left {
            self.record.send(Side::Left, Packet::Algo(message));
        }
        if let Some(message) = sends.right {
            self.record.send(Side::Right, Packet::Algo(message));
        }
    }
}

#[cfg(test)]
mod tests {
    use super::*;
    use crate::algorithms::Chang;

    fn id(number: u32) -> NodeId {
        NodeId::new(number).unwrap()
    }

    #[test]
    fn a_node_keeps_its_receipts_and_what_it_sent() {
        let mut node = Node::<Chang>::seat(id(3));
        assert_eq!(node.fetch(Side::Right), Some(Packet::Algo(id(3))));
        assert_eq!(node.take(Side::Left, Packet::Algo(id(2))), None);
        assert_eq!(node.take(Side::Left, Packet::Algo(id(3))), Some(id(3)));
        assert_eq!(node.take(Side::Left, Packet::Leader(id(3))), None);
        let receipts = node.record().receipts().iter();
        let packets: Vec<_> = receipts.map(|receipt| receipt.packet).collect();
        assert_eq!(
            packets,
            [
                Packet::Algo(id(2)),
                Packet::Algo(id(3)),
                Packet::Leader(id(3))
            ]
        );
        assert_eq!(
            node.record().sent(Side::Right),
            [Packet::Algo(id(3)), Packet::Leader(id(3))]
        );
        assert_eq!(
            (node.waiting(Side::Left), node.waiting(Side::Right)),
            (0, 1)
        );
    }
}
