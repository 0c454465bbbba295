//! A plain server of election lines on 127.0.0.1: a thread for each client, and one lock.
//!
//! `plain-serve PORT` answers the clients' commands, `plain-serve PORT --history` keeps besides what was
//! asked and answered, and `plain-serve PORT --echo` sends each line back. It runs until it is ended.
//!
//! `plain-serve PORT --journal FILE` keeps the changes in a file, and goes on after a restart: each is synced
//! before its reply is written, while the lock is held. With `--shared-journal FILE` no lock of the table is held
//! at a sync, and one sync serves all clients that wait.

#[path = "../../plain/src/algorithms/mod.rs"]
mod algorithms;
#[path = "../../plain/src/book.rs"]
mod book;
#[path = "../../plain/src/grammar.rs"]
mod grammar;
mod history;
mod journal;
#[path = "../../plain/src/keep.rs"]
mod keep;
mod kept;
#[path = "../../plain/src/lines.rs"]
mod lines;
#[path = "../../plain/src/names.rs"]
mod names;
#[path = "../../plain/src/node.rs"]
mod node;
#[path = "../../plain/src/ready.rs"]
mod ready;
#[path = "../../plain/src/refusal.rs"]
mod refusal;
#[path = "../../plain/src/reply.rs"]
mod reply;
#[path = "../../plain/src/service.rs"]
mod service;
mod table;
#[path = "../../plain/src/world.rs"]
mod world;

use kept::Kept;
use lines::{Filled, Line, LineFault, LineReader};
use std::io::{self, Write};
use std::net::{Ipv4Addr, TcpListener, TcpStream};
use std::path::Path;
use std::process::{self, ExitCode};
use std::sync::{Arc, Mutex};
use std::thread;
use table::Table;

/// The number of read calls after which a session ends.
const READS: u64 = u64::MAX;

const HELD: &str = "no session ends while it holds the lock";

/// What a line is answered.
#[derive(Clone)]
enum Answers {
    /// The line itself.
    Echo,
    /// The reply of the table that all sessions share.
    Shared(Arc<Mutex<Table>>),
    /// The reply of a table that has a journal.
    Kept(Arc<Kept>),
}

impl Answers {
    /// Appends the answer to one line.
    fn answer(&self, session: u32, line: Line<'_>, out: &mut Vec<u8>) {
        match (self, line) {
            (Answers::Echo, Line::Short(bytes)) => {
                out.extend(bytes);
                out.push(b'\n');
            }
            (Answers::Shared(table), Line::Short(bytes)) => answer(table, session, bytes, out),
            (Answers::Kept(kept), Line::Short(bytes)) => answer(kept.table(), session, bytes, out),
            (_, Line::Long) => out.extend(b"no bad-line\n"),
        }
    }

    /// Has all that was answered so far on the disk.
    fn settle(&self) -> io::Result<()> {
        match self {
            Answers::Kept(kept) => kept.settle(),
            Answers::Echo | Answers::Shared(_) => Ok(()),
        }
    }
}

/// Appends the answer of a table to one line.
fn answer(table: &Mutex<Table>, session: u32, line: &[u8], out: &mut Vec<u8>) {
    let event = table::parse_command(line);
    let mut table = table.lock().expect(HELD);
    table.answer(session, line, event, out);
}

/// One session: before each read the answers to all lines that are held are written at once.
fn serve(answers: &Answers, session: u32, stream: &TcpStream) -> Result<(), LineFault> {
    let mut lines = LineReader::new(stream, READS);
    let mut out = Vec::new();
    let mut writer = stream;
    loop {
        while let Some(line) = lines.held_line() {
            answers.answer(session, line, &mut out);
        }
        settle(answers);
        writer.write_all(&out).map_err(|_| LineFault::Write)?;
        out.clear();
        if lines.fill()? == Filled::End {
            break;
        }
    }
    if let Some(line) = lines.last_line() {
        answers.answer(session, line, &mut out);
    }
    settle(answers);
    writer.write_all(&out).map_err(|_| LineFault::Write)
}

/// Has all that was answered so far on the disk; else the process ends.
fn settle(answers: &Answers) {
    if let Err(error) = answers.settle() {
        eprintln!("plain-serve: {error}");
        process::exit(1);
    }
}

fn run(port: u16, answers: &Answers) -> io::Result<()> {
    let listener = TcpListener::bind((Ipv4Addr::LOCALHOST, port))?;
    println!("listening {}", listener.local_addr()?);
    for session in 1.. {
        let (stream, _) = listener.accept()?;
        stream.set_nodelay(true)?;
        let answers = answers.clone();
        thread::spawn(move || serve(&answers, session, &stream));
    }
    Ok(())
}

/// What lines are answered, as the words behind the port say.
fn read_answers(words: &[String]) -> Option<io::Result<Answers>> {
    let shared = |table| Ok(Answers::Shared(Arc::new(Mutex::new(table))));
    let words: Vec<&str> = words.iter().map(String::as_str).collect();
    Some(match words.as_slice() {
        [] => shared(Table::without_history()),
        ["--history"] => shared(Table::with_history()),
        ["--echo"] => Ok(Answers::Echo),
        ["--journal", file] => kept(file, false),
        ["--shared-journal", file] => kept(file, true),
        _ => return None,
    })
}

fn kept(file: &str, is_shared: bool) -> io::Result<Answers> {
    Ok(Answers::Kept(Arc::new(Kept::open(
        Path::new(file),
        is_shared,
    )?)))
}

/// The port and what lines are answered, as the words of the command line say.
fn read_words(words: &[String]) -> Option<(u16, io::Result<Answers>)> {
    let (port, rest) = words.split_first()?;
    Some((port.parse().ok()?, read_answers(rest)?))
}

fn main() -> ExitCode {
    let words: Vec<String> = std::env::args().skip(1).collect();
    let Some((port, answers)) = read_words(&words) else {
        eprintln!(
            "usage: plain-serve PORT [--history | --echo | --journal FILE | --shared-journal FILE]"
        );
        return ExitCode::from(2);
    };
    match answers.and_then(|answers| run(port, &answers)) {
        Ok(()) => ExitCode::SUCCESS,
        Err(error) => {
            eprintln!("plain-serve: {error}");
            ExitCode::FAILURE
        }
    }
}
