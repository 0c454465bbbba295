//! One run: the groups begin, the workers handle all packets, and hand over their nodes.

use crate::algorithms::Algorithm;
use crate::rings::{Charter, charter};
use crate::worker::{Item, Slot, Worker};
use std::sync::Arc;
use std::sync::atomic::Ordering;
use std::sync::mpsc::{SyncSender, TrySendError, sync_channel};
use std::thread;
use std::time::{Duration, Instant};

/// The elections of a run, and what they go through.
pub struct Plan {
    pub groups: u32,
    pub members: u32,
    pub workers: usize,
    pub capacity: usize,
    pub packets: u64,
}

impl Plan {
    pub fn nodes(&self) -> u64 {
        u64::from(self.groups) * u64::from(self.members)
    }

    fn items(&self) -> u64 {
        self.packets + self.workers as u64 * u64::from(self.groups)
    }
}

/// What a run comes to.
pub struct Outcome {
    pub nodes: u64,
    pub known: u64,
    pub dropped: u64,
    pub fed: Duration,
    pub time: Duration,
}

/// Runs these elections.
pub fn run<A>(plan: &Plan) -> Outcome
where
    A: Algorithm + Send + 'static,
    A::Message: Send + 'static,
{
    let charters: Vec<Arc<Charter>> = (0..plan.groups)
        .map(|group| Arc::new(charter(group, plan.members)))
        .collect();
    let (passes, inboxes): (Vec<_>, Vec<_>) = (0..plan.workers)
        .map(|_| sync_channel::<Item<A::Message>>(plan.capacity))
        .unzip();
    let slots: Arc<Vec<Slot>> = Arc::new(passes.iter().map(|_| Slot::default()).collect());
    let workers: Vec<_> = inboxes
        .into_iter()
        .enumerate()
        .map(|(number, inbox)| Worker::<A>::new(number, inbox, passes.clone(), Arc::clone(&slots)))
        .collect();
    let start = Instant::now();
    let threads: Vec<_> = workers
        .into_iter()
        .map(|worker| thread::spawn(move || worker.run()))
        .collect();
    for charter in &charters {
        for to in &passes {
            put(to, Item::Begin(Arc::clone(charter)));
        }
    }
    let fed = start.elapsed();
    while slots
        .iter()
        .map(|slot| slot.0.load(Ordering::SeqCst))
        .sum::<u64>()
        < plan.items()
    {
        thread::sleep(Duration::from_millis(1));
    }
    let time = start.elapsed();
    for to in &passes {
        put(to, Item::Stop);
    }
    let handed: Vec<_> = threads
        .into_iter()
        .map(|thread| thread.join().expect("a worker"))
        .collect();
    Outcome {
        nodes: handed.iter().map(|handed| handed.nodes.len() as u64).sum(),
        known: handed.iter().map(|handed| handed.known).sum(),
        dropped: handed.iter().map(|handed| handed.dropped).sum(),
        fed,
        time,
    }
}

/// Puts an item, again and again until it is stored.
fn put<M>(to: &SyncSender<Item<M>>, item: Item<M>) {
    let mut item = item;
    loop {
        match to.try_send(item) {
            Ok(()) => return,
            Err(TrySendError::Full(back)) => item = back,
            Err(TrySendError::Disconnected(_)) => panic!("a worker has gone"),
        }
        thread::yield_now();
    }
}
