//! Elections of many groups through threads with channels, without proofs: what the workers are measured against.
//!
//! `plain-workers run KIND GROUPS MEMBERS WORKERS CAPACITY PACKETS` answers as `worker_rings run` does.

#[allow(dead_code)]
#[path = "../../../plain/src/algorithms/mod.rs"]
mod algorithms;
#[allow(dead_code)]
#[path = "../../../plain/src/keep.rs"]
mod keep;
#[allow(dead_code)]
#[path = "../../../plain/src/names.rs"]
mod names;
#[allow(dead_code)]
#[path = "../../../plain/src/node.rs"]
mod node;
mod rings;
mod runs;
mod worker;

use algorithms::{Chang, Hirschberg, Kind, LeLann, Peterson};
use runs::Plan;
use std::process::ExitCode;

/// The kind and the plan that the words of the command line ask for.
fn read_words() -> Option<(Kind, Plan)> {
    let words: Vec<String> = std::env::args().skip(1).collect();
    let [order, kind, groups, members, workers, capacity, packets] = words.as_slice() else {
        return None;
    };
    if order != "run" {
        return None;
    }
    let plan = Plan {
        groups: groups.parse().ok()?,
        members: members.parse().ok()?,
        workers: workers.parse().ok()?,
        capacity: capacity.parse().ok()?,
        packets: packets.parse().ok()?,
    };
    Some((Kind::from_word(kind.as_bytes())?, plan))
}

fn main() -> ExitCode {
    let Some((kind, plan)) = read_words() else {
        eprintln!("plain-workers: run KIND GROUPS MEMBERS WORKERS CAPACITY PACKETS");
        return ExitCode::FAILURE;
    };
    let outcome = match kind {
        Kind::LeLann => runs::run::<LeLann>(&plan),
        Kind::Chang => runs::run::<Chang>(&plan),
        Kind::Hirschberg => runs::run::<Hirschberg>(&plan),
        Kind::Peterson => runs::run::<Peterson>(&plan),
    };
    println!(
        "packets {} nodes {} known {} dropped {} fed_us {} run_us {}",
        plan.packets,
        outcome.nodes,
        outcome.known,
        outcome.dropped,
        outcome.fed.as_micros(),
        outcome.time.as_micros()
    );
    if outcome.known == plan.nodes() && outcome.nodes == plan.nodes() && outcome.dropped == 0 {
        ExitCode::SUCCESS
    } else {
        ExitCode::FAILURE
    }
}
