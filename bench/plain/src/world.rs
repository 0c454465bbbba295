//! All nodes of one running term, and the packets between them.

use crate::algorithms::{Algorithm, Chang, Hirschberg, Kind, LeLann, Peterson};
use crate::keep::Keep;
use crate::names::{NodeId, Side};
use crate::node::Node;
use crate::ready::{Link, ReadyLinks};

/// What became of one delivery.
#[derive(Clone, Copy, Debug, PartialEq, Eq)]
pub enum Delivery {
    /// The front packet was taken; the leader is there where the receiver now knows it for the
    /// first time.
    Moved(Option<NodeId>),
    /// Nothing is in flight on that link, or it is cut.
    Idle,
    /// Nothing ever arrives from that side.
    OneWay,
}

/// A running term, whatever its algorithm.
pub trait RunningTerm: Send {
    /// Moves the front packet of the link that leads to this position from this side.
    fn deliver(&mut self, link: Link) -> Delivery;

    /// Makes deliveries at the least ready link, until `count` are made or nothing is ready, and
    /// tells `learned` of each node that gets to know the leader. The answer is their number.
    fn drain(&mut self, count: u64, learned: &mut dyn FnMut(usize, NodeId)) -> u64;

    /// Cuts a link: it delivers nothing more. The answer is whether anything ever arrives there.
    fn cut(&mut self, link: Link) -> bool;

    /// The number of packets in flight, and of those that are stuck on links that are cut.
    fn pending(&self) -> u64;
}

/// How a term of some kind is started on a ring.
pub type Begin = fn(Kind, &[NodeId]) -> Box<dyn RunningTerm>;

/// Starts a term of this kind on a ring, whose nodes keep as much as `K` says.
pub fn begin<K: Keep>(kind: Kind, ring: &[NodeId]) -> Box<dyn RunningTerm> {
    match kind {
        Kind::LeLann => Box::new(World::<LeLann, K>::begin(ring)),
        Kind::Chang => Box::new(World::<Chang, K>::begin(ring)),
        Kind::Hirschberg => Box::new(World::<Hirschberg, K>::begin(ring)),
        Kind::Peterson => Box::new(World::<Peterson, K>::begin(ring)),
    }
}

/// What is in flight on a link is what its sender has waiting there.
struct World<A: Algorithm, K: Keep> {
    nodes: Vec<Node<A, K>>,
    pending: u64,
    ready: ReadyLinks,
    cut: ReadyLinks,
}

impl<A: Algorithm, K: Keep> World<A, K> {
    fn begin(ring: &[NodeId]) -> World<A, K> {
        let nodes = ring.iter().map(|&me| Node::seat(me)).collect();
        let mut world = World {
            nodes,
            pending: 0,
            ready: ReadyLinks::default(),
            cut: ReadyLinks::default(),
        };
        for position in 0..ring.len() {
            world.count_sends(position, 0, 0);
        }
        world
    }

    fn neighbour(&self, position: usize, side: Side) -> usize {
        let last = self.nodes.len() - 1;
        match side {
            Side::Left => {
                if position == 0 {
                    last
                } else {
                    position - 1
                }
            }
            Side::Right => {
                if position == last {
                    0
                } else {
                    position + 1
                }
            }
        }
    }

    /// Counts what waits at the node at this position beyond the given numbers.
    fn count_sends(&mut self, position: usize, left: usize, right: usize) {
        let node = &self.nodes[position];
        let more_left = node.waiting(Side::Left) - left;
        let more_right = node.waiting(Side::Right) - right;
        self.pending += (more_left + more_right) as u64;
        if more_left > 0 {
            let receiver = self.neighbour(position, Side::Left);
            self.wake(Link {
                receiver,
                side: Side::Right,
            });
        }
        if more_right > 0 {
            let receiver = self.neighbour(position, Side::Right);
            self.wake(Link {
                receiver,
                side: Side::Left,
            });
        }
    }

    /// Marks a link as ready, unless it is cut.
    fn wake(&mut self, link: Link) {
        if !self.cut.has(link) {
            self.ready.insert(link);
        }
    }

    /// Moves the front packet of a link that may be used.
    fn advance(&mut self, link: Link) -> Delivery {
        if self.cut.has(link) {
            return Delivery::Idle;
        }
        let Link { receiver, side } = link;
        let sender = self.neighbour(receiver, side);
        let sender = &mut self.nodes[sender];
        let Some(packet) = sender.fetch(side.other()) else {
            return Delivery::Idle;
        };
        if sender.waiting(side.other()) == 0 {
            self.ready.remove(link);
        }
        let node = &mut self.nodes[receiver];
        let (left, right) = (node.waiting(Side::Left), node.waiting(Side::Right));
        let learned = node.take(side, packet);
        self.pending -= 1;
        self.count_sends(receiver, left, right);
        Delivery::Moved(learned)
    }
}

impl<A: Algorithm, K: Keep> RunningTerm for World<A, K> {
    fn deliver(&mut self, link: Link) -> Delivery {
        if link.side == Side::Right && !A::TWO_WAY {
            return Delivery::OneWay;
        }
        self.advance(link)
    }

    fn drain(&mut self, count: u64, learned: &mut dyn FnMut(usize, NodeId)) -> u64 {
        for done in 0..count {
            let Some(link) = self.ready.least() else {
                return done;
            };
            if let Delivery::Moved(Some(leader)) = self.advance(link) {
                learned(link.receiver, leader);
            }
        }
        count
    }

    fn cut(&mut self, link: Link) -> bool {
        if link.side == Side::Right && !A::TWO_WAY {
            return false;
        }
        self.cut.insert(link);
        self.ready.remove(link);
        true
    }

    fn pending(&self) -> u64 {
        self.pending
    }
}

#[cfg(test)]
mod tests {
    use super::*;
    use crate::in_flight::InFlight;
    use crate::keep::Journals;
    use crate::node::Packet;

    fn ring(numbers: &[u32]) -> Vec<NodeId> {
        numbers
            .iter()
            .map(|&number| NodeId::new(number).unwrap())
            .collect()
    }

    #[test]
    fn the_first_delivery_is_at_the_least_link() {
        the_least_link_comes_first::<Journals>();
        the_least_link_comes_first::<InFlight>();
    }

    fn the_least_link_comes_first<K: Keep>() {
        let mut world = World::<Chang, K>::begin(&ring(&[3, 1, 2]));
        let least = Link {
            receiver: 0,
            side: Side::Left,
        };
        assert_eq!(world.pending(), 3);
        assert_eq!(world.ready.least(), Some(least));
        assert_eq!(world.deliver(least), Delivery::Moved(None));
        assert_eq!(world.deliver(least), Delivery::Idle);
        assert_eq!(world.drain(100, &mut |_, _| {}), 7);
        assert_eq!(world.pending(), 0);
        assert_eq!(world.ready.least(), None);
    }

    #[test]
    fn a_cut_link_keeps_its_packets() {
        cut_packets_are_pending::<Journals>();
        cut_packets_are_pending::<InFlight>();
    }

    fn cut_packets_are_pending<K: Keep>() {
        let mut world = World::<Chang, K>::begin(&ring(&[3, 1, 2]));
        let link = Link {
            receiver: 2,
            side: Side::Left,
        };
        assert!(world.cut(link));
        assert_eq!(world.deliver(link), Delivery::Idle);
        assert_eq!(world.drain(100, &mut |_, _| {}), 2);
        assert_eq!(world.pending(), 2);
        assert_eq!(world.ready.least(), None);
    }

    #[test]
    fn each_node_took_what_its_neighbours_sent() {
        let members = ring(&[9, 4, 12, 7, 1, 30, 5]);
        let mut world = World::<Hirschberg, Journals>::begin(&members);
        let done = world.drain(1_000_000, &mut |_, _| {});
        let records: Vec<_> = world.nodes.iter().map(|node| node.record()).collect();
        let receipts: usize = records.iter().map(|record| record.receipts().len()).sum();
        assert_eq!(done, receipts as u64);
        for (position, record) in records.iter().enumerate() {
            for side in [Side::Left, Side::Right] {
                let sender = records[world.neighbour(position, side)];
                let receipts = record.receipts().iter();
                let taken = receipts.filter(|receipt| receipt.side == side);
                let packets: Vec<_> = taken.map(|receipt| receipt.packet).collect();
                assert_eq!(packets, sender.sent(side.other()));
            }
        }
    }

    #[test]
    fn what_each_position_sends_under_peterson() {
        let mut world = World::<Peterson, Journals>::begin(&ring(&[4, 1, 3, 2]));
        world.drain(100, &mut |_, _| {});
        let sent = |position: usize| -> Vec<u32> {
            let packets = world.nodes[position].record().sent(Side::Right).iter();
            packets
                .filter_map(|packet| match packet {
                    Packet::Algo(value) => Some(value.get()),
                    Packet::Leader(_) => None,
                })
                .collect()
        };
        assert_eq!(sent(0), [4, 2, 3, 4, 4, 4]);
        assert_eq!(sent(1), [1, 4, 4, 3, 4, 4]);
        assert_eq!(sent(2), [3, 1, 4, 3, 4, 4]);
        assert_eq!(sent(3), [2, 3, 3, 4, 4, 4]);
    }
}
