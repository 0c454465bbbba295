//! Measures how long a server on this machine takes from a start to a leader that all members know.
//!
//! `decide PLACE GROUPS`: PLACE is a port of 127.0.0.1 or the path of a socket. One connection makes so many groups,
//! starts the first term of all in one write, and asks each member who leads, 64 at once, those that don't know it again
//! and again, until each has named the greatest member of its ring. One line is printed: the seconds from just before
//! the first start until the last leader was read.

#[path = "../client.rs"]
mod client;

use client::{Client, Groups, Place};
use std::io;
use std::process::ExitCode;
use std::time::Instant;

/// A server has no more groups.
const MOST_GROUPS: usize = 256;

/// The place, and the number of groups.
fn read_words(words: &[String]) -> Option<(Place, usize)> {
    let [place, groups] = words else {
        return None;
    };
    let groups = groups.parse().ok()?;
    (1..=MOST_GROUPS)
        .contains(&groups)
        .then_some((Place::from_word(place)?, groups))
}

/// The seconds that the elections took.
fn run(place: &Place, groups: usize) -> io::Result<f64> {
    let names: Vec<String> = (0..groups).map(|number| format!("g{number}")).collect();
    let mut client = Client::connect(place)?;
    let groups = Groups::make(&mut client, &names)?;
    let began = Instant::now();
    groups.decide(&mut client)?;
    Ok(began.elapsed().as_secs_f64())
}

fn main() -> ExitCode {
    let words: Vec<String> = std::env::args().skip(1).collect();
    let Some((place, groups)) = read_words(&words) else {
        eprintln!("usage: decide PLACE GROUPS, of which there are 1 to {MOST_GROUPS}");
        return ExitCode::from(2);
    };
    match run(&place, groups) {
        Ok(seconds) => {
            println!("{seconds:.6}");
            ExitCode::SUCCESS
        }
        Err(error) => {
            eprintln!("decide: {error}");
            ExitCode::FAILURE
        }
    }
}
