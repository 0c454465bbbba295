//! Asks a server on this machine who leads, or has it change groups, over and over, and counts the replies.
//!
//! `load PLACE CONNECTIONS DEPTH SECONDS WHAT`: PLACE is a port of 127.0.0.1 or the path of a socket. Each connection
//! has a thread, which writes DEPTH lines at once and reads as many replies before it writes the next. WHAT is
//! `leader`, where every reply has to be the leader of the group that is made first, or `echo`, where it has to be the
//! line itself. With `changes` a member joins and leaves a group of each connection's own. One line is printed: the
//! number of replies, and the seconds that they took.

#[path = "../asking.rs"]
mod asking;
#[path = "../client.rs"]
mod client;
#[path = "../crowd.rs"]
mod crowd;

use asking::Wanted;
use client::{Client, Place};
use std::io;
use std::process::ExitCode;
use std::sync::Barrier;
use std::time::{Duration, Instant};

struct Load {
    place: Place,
    connections: usize,
    depth: usize,
    time: Duration,
    wanted: Wanted,
}

impl Load {
    fn from_words(words: &[String]) -> Option<Load> {
        let [place, connections, depth, seconds, wanted] = words else {
            return None;
        };
        Some(Load {
            place: Place::from_word(place)?,
            connections: connections.parse().ok()?,
            depth: depth.parse().ok()?,
            time: Duration::try_from_secs_f64(seconds.parse().ok()?).ok()?,
            wanted: Wanted::from_word(wanted)?,
        })
    }

    /// One connection, from the moment when all are there; the answer is how many replies it got.
    fn ask(&self, connection: usize, begin: &Barrier) -> io::Result<usize> {
        let connected = Client::connect(&self.place);
        begin.wait();
        let mut client = connected?;
        let batches = self.wanted.batches(self.depth, connection);
        let began = Instant::now();
        let mut count = 0;
        for (lines, replies) in batches.iter().cycle() {
            if began.elapsed() >= self.time {
                break;
            }
            client.expect(lines, replies)?;
            count += self.depth;
        }
        Ok(count)
    }

    /// All connections at once; the answer is how many replies they got, and the seconds that passed.
    fn run(&self) -> io::Result<(usize, f64)> {
        self.wanted.prepare(&self.place)?;
        crowd::ask_at_once(self.connections, |connection, begin| {
            self.ask(connection, begin)
        })
    }
}

fn main() -> ExitCode {
    let words: Vec<String> = std::env::args().skip(1).collect();
    let Some(load) = Load::from_words(&words) else {
        eprintln!("usage: load PLACE CONNECTIONS DEPTH SECONDS leader|echo|changes");
        return ExitCode::from(2);
    };
    match load.run() {
        Ok((count, seconds)) => {
            println!("{count} {seconds:.6}");
            ExitCode::SUCCESS
        }
        Err(error) => {
            eprintln!("load: {error}");
            ExitCode::FAILURE
        }
    }
}
