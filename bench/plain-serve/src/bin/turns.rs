//! Asks servers on this machine who leads, in turns, and says how long lines that are written at once take each.
//!
//! `turns ROUNDS DEPTH PLACE WHAT ..`: there is one connection to each server. PLACE and WHAT are as for `load`.
//! In a round each server is asked DEPTH lines at once, some times, while the others wait; its time is
//! that which a quarter of these took no longer than. For each server one line is printed: the median of
//! its times in microseconds, and the median of how many times the first server's time of that round it was.
//! A machine that is now faster and now slower so is so for all of them.

#[path = "../asking.rs"]
mod asking;
#[path = "../client.rs"]
mod client;

use asking::Wanted;
use client::{Client, Place};
use std::io;
use std::process::ExitCode;
use std::time::Instant;

/// How often a server is asked in a round, after it was asked twice to be awake.
const ASKED: usize = 25;

/// A server, and its time in each round.
struct Server {
    client: Client,
    lines: Vec<u8>,
    replies: Vec<u8>,
    times: Vec<f64>,
}

impl Server {
    fn prepare(place: &Place, wanted: Wanted, depth: usize) -> io::Result<Server> {
        wanted.prepare(place)?;
        let (lines, replies) = wanted.batches(depth, 0).swap_remove(0);
        Ok(Server {
            client: Client::connect(place)?,
            lines,
            replies,
            times: Vec::new(),
        })
    }

    /// The microseconds until the replies are there.
    fn ask(&mut self) -> io::Result<f64> {
        let began = Instant::now();
        self.client.expect(&self.lines, &self.replies)?;
        Ok(began.elapsed().as_secs_f64() * 1e6)
    }

    fn run_round(&mut self) -> io::Result<()> {
        self.ask()?;
        self.ask()?;
        let mut times = (0..ASKED)
            .map(|_| self.ask())
            .collect::<io::Result<Vec<f64>>>()?;
        times.sort_by(f64::total_cmp);
        self.times.push(times[ASKED / 4]);
        Ok(())
    }
}

/// What is measured: the servers, each by its place and what it is to reply.
struct Turns {
    rounds: usize,
    depth: usize,
    servers: Vec<(Place, Wanted)>,
}

impl Turns {
    fn from_words(words: &[String]) -> Option<Turns> {
        let [rounds, depth, servers @ ..] = words else {
            return None;
        };
        let turns = Turns {
            rounds: rounds.parse().ok()?,
            depth: depth.parse().ok()?,
            servers: servers.chunks(2).map(read_server).collect::<Option<_>>()?,
        };
        (turns.rounds > 0 && !turns.servers.is_empty()).then_some(turns)
    }

    /// All rounds; in each of them another server is the first.
    fn run(&self) -> io::Result<Vec<Server>> {
        let mut servers = self
            .servers
            .iter()
            .map(|(place, wanted)| Server::prepare(place, *wanted, self.depth))
            .collect::<io::Result<Vec<Server>>>()?;
        let count = servers.len();
        for round in 0..self.rounds {
            for turn in 0..count {
                servers[(round + turn) % count].run_round()?;
            }
        }
        Ok(servers)
    }
}

fn read_server(words: &[String]) -> Option<(Place, Wanted)> {
    let [place, wanted] = words else {
        return None;
    };
    Some((Place::from_word(place)?, Wanted::from_word(wanted)?))
}

fn median(mut values: Vec<f64>) -> f64 {
    values.sort_by(f64::total_cmp);
    values[values.len() / 2]
}

fn main() -> ExitCode {
    let words: Vec<String> = std::env::args().skip(1).collect();
    let Some(turns) = Turns::from_words(&words) else {
        eprintln!("usage: turns ROUNDS DEPTH PLACE leader|echo ..");
        return ExitCode::from(2);
    };
    match turns.run() {
        Ok(servers) => {
            let first = &servers[0].times;
            for server in &servers {
                let ratios = server
                    .times
                    .iter()
                    .zip(first)
                    .map(|(time, first)| time / first);
                println!(
                    "{:.2} {:.3}",
                    median(server.times.clone()),
                    median(ratios.collect())
                );
            }
            ExitCode::SUCCESS
        }
        Err(error) => {
            eprintln!("turns: {error}");
            ExitCode::FAILURE
        }
    }
}
