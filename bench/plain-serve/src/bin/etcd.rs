//! Has an etcd on 127.0.0.1 put keys, over and over, and counts the replies.
//!
//! `etcd PORT CONNECTIONS SECONDS`: each connection has a thread, which puts a key of its own and waits for the reply
//! before it puts the next value. It speaks HTTP, by the gateway that etcd has for clients without gRPC. One line is
//! printed: the number of replies, and the seconds that they took.

#[path = "../crowd.rs"]
mod crowd;

use std::io::{self, BufRead, BufReader, Read, Write};
use std::net::TcpStream;
use std::process::ExitCode;
use std::sync::Barrier;
use std::time::{Duration, Instant};

// Values of 21 bytes in base64, about as long as a change of a journal.
const VALUES: [&str; 2] = [
    "am9pbiBncm91cC0xMCA0Mjk0OTY3",
    "bGVhdmUgZ3JvdXAtMTAgNDI5NDk2",
];

/// One connection.
struct Client {
    replies: BufReader<TcpStream>,
    key: String,
}

impl Client {
    fn connect(port: u16, connection: usize) -> io::Result<Client> {
        let stream = TcpStream::connect(("127.0.0.1", port))?;
        stream.set_nodelay(true)?;
        Ok(Client {
            replies: BufReader::new(stream),
            key: format!("a2V5LW9mLWNsaWVudC{connection:02}"),
        })
    }

    /// Puts a value, and waits until etcd says that it has it.
    fn put(&mut self, value: &str) -> io::Result<()> {
        let body = format!(r#"{{"key":"{}","value":"{value}"}}"#, self.key);
        let length = body.len();
        let head = "POST /v3/kv/put HTTP/1.1\r\nHost: localhost\r\nContent-Type: application/json";
        let request = format!("{head}\r\nContent-Length: {length}\r\n\r\n{body}");
        self.replies.get_mut().write_all(request.as_bytes())?;
        self.expect_reply()
    }

    fn expect_reply(&mut self) -> io::Result<()> {
        let mut line = String::new();
        self.replies.read_line(&mut line)?;
        if !line.starts_with("HTTP/1.1 200") {
            return Err(io::Error::other(line));
        }
        let mut length = 0;
        while line != "\r\n" {
            line.clear();
            self.replies.read_line(&mut line)?;
            if let Some(count) = line.to_ascii_lowercase().strip_prefix("content-length:") {
                length = count.trim().parse().map_err(io::Error::other)?;
            }
        }
        self.replies.read_exact(&mut vec![0; length])
    }
}

/// One connection, from the moment when all are there; the answer is how many replies it got.
fn ask(port: u16, connection: usize, time: Duration, begin: &Barrier) -> io::Result<usize> {
    let connected = Client::connect(port, connection);
    begin.wait();
    let mut client = connected?;
    let began = Instant::now();
    let mut count = 0;
    while began.elapsed() < time {
        client.put(VALUES[count % 2])?;
        count += 1;
    }
    Ok(count)
}

fn main() -> ExitCode {
    let words: Vec<String> = std::env::args().skip(1).collect();
    let [port, connections, seconds] = &words[..] else {
        eprintln!("etcd PORT CONNECTIONS SECONDS");
        return ExitCode::from(2);
    };
    let (Ok(port), Ok(connections), Ok(seconds)) =
        (port.parse(), connections.parse(), seconds.parse())
    else {
        eprintln!("etcd: numbers are wanted");
        return ExitCode::from(2);
    };
    let time = Duration::from_secs_f64(seconds);
    match crowd::ask_at_once(connections, |it, begin| ask(port, it, time, begin)) {
        Ok((count, took)) => {
            println!("{count} {took}");
            ExitCode::SUCCESS
        }
        Err(fault) => {
            eprintln!("etcd: {fault}");
            ExitCode::FAILURE
        }
    }
}
