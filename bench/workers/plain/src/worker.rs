//! One worker: it takes items from its channel, and sends what its nodes send to the owners of the receivers.

use crate::algorithms::Algorithm;
use crate::names::{GroupName, Side};
use crate::node::{Node, Packet};
use crate::rings::Charter;
use std::collections::{HashMap, VecDeque};
use std::sync::Arc;
use std::sync::atomic::{AtomicU64, Ordering};
use std::sync::mpsc::{Receiver, SyncSender, TryRecvError, TrySendError};
use std::thread;
use std::time::Duration;

/// A packet on its way: its term, its link, and how many packets of its sort went before it there.
pub struct Envelope<M> {
    charter: Arc<Charter>,
    from: usize,
    side: Side,
    index: usize,
    packet: Packet<M>,
}

impl<M> Envelope<M> {
    fn receiver(&self) -> usize {
        self.charter.neighbour(self.from, self.side)
    }
}

/// What a worker takes from its channel.
pub enum Item<M> {
    Begin(Arc<Charter>),
    Packet(Envelope<M>),
    Stop,
}

/// A node, and how many packets of each sort it has sent to and taken from each side.
struct Seat<A: Algorithm> {
    node: Node<A>,
    algos_sent: [usize; 2],
    algos_taken: [usize; 2],
    leaders_taken: [usize; 2],
}

/// The nodes of one group that a worker owns, by position.
struct Seats<A: Algorithm> {
    charter: Arc<Charter>,
    places: Vec<Option<Seat<A>>>,
}

/// How many items a worker has handled, on cache lines of its own.
#[repr(align(128))]
#[derive(Default)]
pub struct Slot(pub AtomicU64);

/// What a worker hands over: how many nodes it has, how many of them know the leader, and what it dropped.
pub struct Handed<A: Algorithm> {
    pub nodes: Vec<Node<A>>,
    pub known: u64,
    pub dropped: u64,
}

pub struct Worker<A: Algorithm> {
    pub number: usize,
    pub inbox: Receiver<Item<A::Message>>,
    pub passes: Vec<SyncSender<Item<A::Message>>>,
    pub slot: Arc<Vec<Slot>>,
    groups: HashMap<GroupName, Seats<A>>,
    outbox: VecDeque<Envelope<A::Message>>,
    known: u64,
    dropped: u64,
}

fn place_of(side: Side) -> usize {
    match side {
        Side::Left => 0,
        Side::Right => 1,
    }
}

impl<A: Algorithm> Worker<A> {
    pub fn new(
        number: usize,
        inbox: Receiver<Item<A::Message>>,
        passes: Vec<SyncSender<Item<A::Message>>>,
        slot: Arc<Vec<Slot>>,
    ) -> Worker<A> {
        Worker {
            number,
            inbox,
            passes,
            slot,
            groups: HashMap::new(),
            outbox: VecDeque::new(),
            known: 0,
            dropped: 0,
        }
    }

    /// Runs until it takes the word to stop.
    pub fn run(mut self) -> Handed<A> {
        let mut turn = 0;
        let mut idle = 0;
        loop {
            self.send();
            let Some(item) = self.next(&mut idle) else {
                continue;
            };
            idle = 0;
            turn += 1;
            match item {
                Item::Stop => return self.hand_over(),
                Item::Begin(charter) => self.begin(&charter),
                Item::Packet(envelope) => self.deliver(envelope),
            }
            self.slot[self.number].0.store(turn, Ordering::SeqCst);
        }
    }

    /// The next item. It waits for one where it has nothing to send; else it yields, and sleeps after a hundred looks.
    fn next(&self, idle: &mut u32) -> Option<Item<A::Message>> {
        if self.outbox.is_empty() {
            return Some(self.inbox.recv().expect("a sender"));
        }
        match self.inbox.try_recv() {
            Ok(item) => return Some(item),
            Err(TryRecvError::Empty) => {}
            Err(TryRecvError::Disconnected) => panic!("no sender"),
        }
        if *idle < 100 {
            *idle += 1;
            thread::yield_now();
        } else {
            thread::sleep(Duration::from_millis(1));
        }
        None
    }

    fn owner_of(&self, charter: &Charter, position: usize) -> usize {
        charter.ring[position].get() as usize % self.passes.len()
    }

    fn send(&mut self) {
        while let Some(envelope) = self.outbox.pop_front() {
            let to = self.owner_of(&envelope.charter, envelope.receiver());
            match self.passes[to].try_send(Item::Packet(envelope)) {
                Ok(()) => {}
                Err(
                    TrySendError::Full(Item::Packet(back))
                    | TrySendError::Disconnected(Item::Packet(back)),
                ) => {
                    self.outbox.push_front(back);
                    return;
                }
                Err(_) => unreachable!(),
            }
        }
    }

    fn begin(&mut self, charter: &Arc<Charter>) {
        for position in 0..charter.ring.len() {
            if self.owner_of(charter, position) == self.number {
                self.seat(charter, position);
            }
        }
    }

    /// Seats the node at a position, unless one is seated there, and posts what it sends.
    fn seat(&mut self, charter: &Arc<Charter>, position: usize) {
        let seats = self.groups.entry(charter.group).or_insert_with(|| Seats {
            charter: Arc::clone(charter),
            places: charter.ring.iter().map(|_| None).collect(),
        });
        if seats.places[position].is_none() {
            let mut seat = Seat {
                node: Node::seat(charter.ring[position]),
                algos_sent: [0; 2],
                algos_taken: [0; 2],
                leaders_taken: [0; 2],
            };
            post(&mut seat, charter, position, &mut self.outbox);
            seats.places[position] = Some(seat);
        }
    }

    fn deliver(&mut self, envelope: Envelope<A::Message>) {
        let position = envelope.receiver();
        if self.owner_of(&envelope.charter, position) != self.number {
            self.dropped += 1;
            return;
        }
        if !self.is_seated(&envelope.charter.group, position) {
            self.seat(&envelope.charter, position);
        }
        let seats = self.groups.get_mut(&envelope.charter.group).expect("seats");
        let is_same = Arc::ptr_eq(&seats.charter, &envelope.charter)
            || seats.charter.term == envelope.charter.term
                && seats.charter.ring == envelope.charter.ring;
        let seat = seats.places[position].as_mut().expect("a seat");
        if !is_same || !is_next(seat, &envelope) {
            self.dropped += 1;
            return;
        }
        let from = envelope.side.other();
        match envelope.packet {
            Packet::Algo(_) => seat.algos_taken[place_of(from)] += 1,
            Packet::Leader(_) => seat.leaders_taken[place_of(from)] += 1,
        }
        if seat.node.take(from, envelope.packet).is_some() {
            self.known += 1;
        }
        post(seat, &seats.charter, position, &mut self.outbox);
    }

    fn is_seated(&self, group: &GroupName, position: usize) -> bool {
        self.groups
            .get(group)
            .is_some_and(|seats| seats.places[position].is_some())
    }

    fn hand_over(self) -> Handed<A> {
        let mut nodes = Vec::new();
        for seats in self.groups.into_values() {
            nodes.extend(seats.places.into_iter().flatten().map(|seat| seat.node));
        }
        Handed {
            nodes,
            known: self.known,
            dropped: self.dropped,
        }
    }
}

/// Whether an envelope is the next of its sort that comes from its side.
fn is_next<A: Algorithm>(seat: &Seat<A>, envelope: &Envelope<A::Message>) -> bool {
    let from = place_of(envelope.side.other());
    match envelope.packet {
        Packet::Algo(_) => envelope.index == seat.algos_taken[from],
        Packet::Leader(_) => seat.leaders_taken[from] == 0,
    }
}

/// Puts what a node has sent since the last time at the back of the outbox.
fn post<A: Algorithm>(
    seat: &mut Seat<A>,
    charter: &Arc<Charter>,
    from: usize,
    outbox: &mut VecDeque<Envelope<A::Message>>,
) {
    for side in [Side::Left, Side::Right] {
        let at = place_of(side);
        while let Some(packet) = seat.node.fetch(side) {
            let index = match packet {
                Packet::Algo(_) => seat.algos_sent[at],
                Packet::Leader(_) => 0,
            };
            if matches!(packet, Packet::Algo(_)) {
                seat.algos_sent[at] += 1;
            }
            outbox.push_back(Envelope {
                charter: Arc::clone(charter),
                from,
                side,
                index,
                packet,
            });
        }
    }
}
