//! Nodes that keep a packet only while it is in flight.

use crate::keep::{Keep, Record};
use crate::names::{BothSides, Side};
use crate::node::{Packet, Receipt};
use std::collections::VecDeque;

/// No receipts, and of what was sent a queue for each link.
pub struct InFlight;

impl Keep for InFlight {
    type Record<M: Copy + Send> = Queues<M>;
}

/// What one node sent to each side and its neighbour didn't take yet.
pub struct Queues<M>(BothSides<VecDeque<Packet<M>>>);

impl<M> Default for Queues<M> {
    fn default() -> Queues<M> {
        Queues(BothSides::default())
    }
}

impl<M: Copy + Send> Record<M> for Queues<M> {
    fn take(&mut self, _: Receipt<M>) {}

    fn send(&mut self, side: Side, packet: Packet<M>) {
        self.0[side].push_back(packet);
    }

    fn waiting(&self, side: Side) -> usize {
        self.0[side].len()
    }

    fn fetch(&mut self, side: Side) -> Option<Packet<M>> {
        self.0[side].pop_front()
    }
}

#[cfg(test)]
mod tests {
    use super::*;
    use crate::algorithms::Chang;
    use crate::names::NodeId;
    use crate::node::Node;

    #[test]
    fn a_packet_is_kept_until_it_is_fetched() {
        let id = |number| NodeId::new(number).unwrap();
        let mut node = Node::<Chang, InFlight>::seat(id(3));
        assert_eq!(node.fetch(Side::Right), Some(Packet::Algo(id(3))));
        assert_eq!(node.take(Side::Left, Packet::Algo(id(5))), None);
        assert_eq!(node.take(Side::Left, Packet::Algo(id(7))), None);
        assert_eq!(
            (node.waiting(Side::Left), node.waiting(Side::Right)),
            (0, 2)
        );
        assert_eq!(node.fetch(Side::Right), Some(Packet::Algo(id(5))));
        assert_eq!(node.fetch(Side::Right), Some(Packet::Algo(id(7))));
        assert_eq!(node.fetch(Side::Right), None);
        assert_eq!(node.fetch(Side::Left), None);
    }
}
