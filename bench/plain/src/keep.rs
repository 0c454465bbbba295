//! What a node keeps of its packets: at the least those that are in flight.

use crate::names::{BothSides, Side};
use crate::node::{Packet, Receipt};

/// How much the nodes of a term keep.
pub trait Keep: 'static {
    type Record<M: Copy + Send>: Record<M>;
}

/// What one node keeps: of what it took, and of what it sent to each side.
pub trait Record<M>: Default + Send {
    /// Notes that a packet was taken.
    fn take(&mut self, receipt: Receipt<M>);

    /// Puts a packet behind those that were sent to this side.
    fn send(&mut self, side: Side, packet: Packet<M>);

    /// How many packets were sent to this side and not fetched yet.
    fn waiting(&self, side: Side) -> usize;

    /// The oldest packet that waits at this side, which then waits no more.
    fn fetch(&mut self, side: Side) -> Option<Packet<M>>;
}

/// All receipts in order, and all that was sent.
pub struct Journals;

impl Keep for Journals {
    type Record<M: Copy + Send> = Journal<M>;
}

/// The receipts of one node, all that it sent to each side, and how much of that was fetched.
pub struct Journal<M> {
    receipts: Vec<Receipt<M>>,
    sent: BothSides<Vec<Packet<M>>>,
    fetched: BothSides<usize>,
}

impl<M> Journal<M> {
    /// All receipts in order.
    #[cfg(test)]
    pub fn receipts(&self) -> &[Receipt<M>] {
        &self.receipts
    }

    /// All that was sent to this side, in order.
    #[cfg(test)]
    pub fn sent(&self, side: Side) -> &[Packet<M>] {
        &self.sent[side]
    }
}

impl<M> Default for Journal<M> {
    fn default() -> Journal<M> {
        Journal {
            receipts: Vec::new(),
            sent: BothSides::default(),
            fetched: BothSides::default(),
        }
    }
}

impl<M: Copy + Send> Record<M> for Journal<M> {
    fn take(&mut self, receipt: Receipt<M>) {
        self.receipts.push(receipt);
    }

    fn send(&mut self, side: Side, packet: Packet<M>) {
        self.sent[side].push(packet);
    }

    fn waiting(&self, side: Side) -> usize {
        self.sent[side].len() - self.fetched[side]
    }

    fn fetch(&mut self, side: Side) -> Option<Packet<M>> {
        let packet = *self.sent[side].get(self.fetched[side])?;
        self.fetched[side] += 1;
        Some(packet)
    }
}
