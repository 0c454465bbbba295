//! A client of a server on this machine, and the groups that it makes there.

use std::io::{self, BufRead, BufReader, Read, Write};
use std::net::{Ipv4Addr, TcpStream};
use std::os::unix::net::UnixStream;
use std::path::PathBuf;
use std::time::{Duration, Instant};

/// The members of a group are 1 to this number, joined in rising order, so that it leads.
pub const MEMBERS: u32 = 16;

/// The reply of every member that knows the leader of the first term.
pub const LEADER: &[u8] = b"leader 1 16\n";

/// The reply of a member that doesn't know it yet.
const UNDECIDED: &[u8] = b"undecided 1\n";

/// How many questions are written at once while leaders are waited for.
const DEPTH: usize = 64;

/// How long the elections may take, and while they are waited for a reply.
const PATIENCE: Duration = Duration::from_secs(10);

/// Where a server listens.
#[derive(Clone)]
pub enum Place {
    /// A port of 127.0.0.1.
    Port(u16),
    /// The path of a socket in the file system.
    Path(PathBuf),
}

impl Place {
    /// The place that a word names. A word with a slash is a path.
    pub fn from_word(word: &str) -> Option<Place> {
        if word.contains('/') {
            return Some(Place::Path(PathBuf::from(word)));
        }
        word.parse().ok().map(Place::Port)
    }
}

/// A connection to either place.
enum Stream {
    Tcp(TcpStream),
    Unix(UnixStream),
}

impl Stream {
    fn connect(place: &Place) -> io::Result<Stream> {
        match place {
            Place::Port(port) => {
                let stream = TcpStream::connect((Ipv4Addr::LOCALHOST, *port))?;
                stream.set_nodelay(true)?;
                Ok(Stream::Tcp(stream))
            }
            Place::Path(path) => Ok(Stream::Unix(UnixStream::connect(path)?)),
        }
    }

    fn set_read_timeout(&self, time: Duration) -> io::Result<()> {
        match self {
            Stream::Tcp(stream) => stream.set_read_timeout(Some(time)),
            Stream::Unix(stream) => stream.set_read_timeout(Some(time)),
        }
    }
}

impl Read for Stream {
    fn read(&mut self, bytes: &mut [u8]) -> io::Result<usize> {
        match self {
            Stream::Tcp(stream) => stream.read(bytes),
            Stream::Unix(stream) => stream.read(bytes),
        }
    }
}

impl Write for Stream {
    fn write(&mut self, bytes: &[u8]) -> io::Result<usize> {
        match self {
            Stream::Tcp(stream) => stream.write(bytes),
            Stream::Unix(stream) => stream.write(bytes),
        }
    }

    fn flush(&mut self) -> io::Result<()> {
        Ok(())
    }
}

/// A connection. Lines are sent as they are written; replies are read through a buffer.
pub struct Client {
    stream: BufReader<Stream>,
}

impl Client {
    pub fn connect(place: &Place) -> io::Result<Client> {
        Ok(Client {
            stream: BufReader::new(Stream::connect(place)?),
        })
    }

    /// Writes lines, and reads their replies, which have to be these.
    pub fn expect(&mut self, lines: &[u8], replies: &[u8]) -> io::Result<()> {
        self.write(lines)?;
        let mut got = vec![0; replies.len()];
        self.stream.read_exact(&mut got)?;
        if got == replies {
            return Ok(());
        }
        Err(io::Error::other("another reply than was wanted"))
    }

    /// Writes lines at once.
    fn write(&mut self, lines: &[u8]) -> io::Result<()> {
        self.stream.get_mut().write_all(lines)
    }

    /// Whether the next reply names the leader; one that doesn't has to say that the term is undecided.
    fn read_whether_decided(&mut self) -> io::Result<bool> {
        let mut reply = Vec::with_capacity(LEADER.len());
        self.stream.read_until(b'\n', &mut reply)?;
        match reply.as_slice() {
            LEADER => Ok(true),
            UNDECIDED => Ok(false),
            b"" => Err(io::ErrorKind::UnexpectedEof.into()),
            other => {
                let told = format!(
                    "a member answered {}",
                    other.trim_ascii_end().escape_ascii()
                );
                Err(io::Error::other(told))
            }
        }
    }

    /// Asks until each of these questions was answered with the leader; what was is not asked again.
    fn ask_until_decided(&mut self, questions: &[String]) -> io::Result<()> {
        let began = Instant::now();
        let mut open: Vec<&str> = questions.iter().map(String::as_str).collect();
        while !open.is_empty() {
            if began.elapsed() > PATIENCE {
                return Err(io::Error::other("a term wasn't decided"));
            }
            let mut undecided = Vec::new();
            for batch in open.chunks(DEPTH) {
                self.write(batch.concat().as_bytes())?;
                for question in batch {
                    if !self.read_whether_decided()? {
                        undecided.push(*question);
                    }
                }
            }
            open = undecided;
        }
        Ok(())
    }
}

/// Groups with members but no term yet, and the lines that are written of them later.
pub struct Groups {
    starts: Vec<u8>,
    started: Vec<u8>,
    questions: Vec<String>,
}

impl Groups {
    /// Makes groups of these names. There are at most 256, so what `decide` writes at once, and the
    /// replies to it, have room in the buffers of the sockets.
    pub fn make(client: &mut Client, names: &[String]) -> io::Result<Groups> {
        let mut groups = Groups {
            starts: Vec::new(),
            started: Vec::new(),
            questions: Vec::new(),
        };
        client.stream.get_ref().set_read_timeout(PATIENCE)?;
        for name in names {
            let mut lines = format!("create {name} chang\n");
            for member in 1..=MEMBERS {
                lines.push_str(&format!("join {name} {member}\n"));
                groups.questions.push(format!("who {name} {member}\n"));
            }
            let replies = "ok\n".repeat(1 + MEMBERS as usize);
            client.expect(lines.as_bytes(), replies.as_bytes())?;
            groups.starts.extend(format!("start {name}\n").as_bytes());
            groups.started.extend(b"term 1\n");
        }
        Ok(groups)
    }

    /// Starts the first term of all groups at once, and waits until each member of each knows the leader.
    pub fn decide(&self, client: &mut Client) -> io::Result<()> {
        client.expect(&self.starts, &self.started)?;
        client.ask_until_decided(&self.questions)
    }
}
