//! A plain replayer of election lines: standard input to standard output, one reply per line.
//!
//! `plain-replay` keeps all that its nodes took and sent, `plain-replay --no-journals` a packet only
//! while it is in flight. Both write the same.

mod algorithms;
mod book;
mod grammar;
mod in_flight;
mod keep;
mod lines;
mod names;
mod node;
mod ready;
mod refusal;
mod replay;
mod reply;
mod service;
mod world;

use in_flight::InFlight;
use keep::Journals;
use std::io;
use std::process::ExitCode;
use world::Begin;

/// The number of read calls after which an input counts as endless.
const READS: u64 = 1_000_000_000;

/// How terms are started, by the words of the command line.
fn read_words() -> Option<Begin> {
    let mut words = std::env::args().skip(1);
    match (words.next().as_deref(), words.next()) {
        (None, _) => Some(world::begin::<Journals>),
        (Some("--no-journals"), None) => Some(world::begin::<InFlight>),
        _ => None,
    }
}

fn main() -> ExitCode {
    let Some(begin) = read_words() else {
        eprintln!("usage: plain-replay [--no-journals]");
        return ExitCode::FAILURE;
    };
    match replay::replay(begin, io::stdin().lock(), io::stdout().lock(), READS) {
        Ok(_) => ExitCode::SUCCESS,
        Err(fault) => {
            eprintln!("plain-replay: {fault}");
            ExitCode::FAILURE
        }
    }
}
