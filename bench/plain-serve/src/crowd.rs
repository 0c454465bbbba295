//! Connections that ask at once, each in a thread of its own.

use std::io;
use std::sync::Barrier;
use std::thread;
use std::time::Instant;

/// Has each connection ask, from the moment when all are there. `ask` waits at the barrier once it is connected, and
/// answers how many replies it got. Returns how many all got, and the seconds that passed.
pub fn ask_at_once<F>(connections: usize, ask: F) -> io::Result<(usize, f64)>
where
    F: Fn(usize, &Barrier) -> io::Result<usize> + Sync,
{
    let begin = Barrier::new(connections + 1);
    thread::scope(|scope| {
        let (ask, begin) = (&ask, &begin);
        let asking: Vec<_> = (0..connections)
            .map(|connection| scope.spawn(move || ask(connection, begin)))
            .collect();
        begin.wait();
        let began = Instant::now();
        let mut count = 0;
        for each in asking {
            count += each.join().expect("a connection doesn't panic")?;
        }
        Ok((count, began.elapsed().as_secs_f64()))
    })
}
