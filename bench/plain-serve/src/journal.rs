//! A journal of changes in a file, in the form of the proved program's: lines with a running CRC-32, and
//! synced zeros ahead of them. It has no `know` lines, since a term is decided as it starts.

use crate::grammar::{Event, parse_event};
use std::ffi::OsString;
use std::fs::{self, File};
use std::io::{self, Write};
use std::os::unix::fs::FileExt;
use std::path::Path;

/// The first line of life 1: this server does not count its lives.
const HEADING: &[u8] = b"ringd journal 1 life 1 #ee26e62a\n";

/// The bytes of a mark: a space, a hash and eight digits.
const MARK: usize = 10;

/// How many zeros are written ahead of the text at a time.
const AHEAD: usize = 65536;

/// The effect of a byte on a CRC-32.
const EFFECTS: [u32; 256] = effects();

const fn effects() -> [u32; 256] {
    let mut table = [0; 256];
    let mut byte = 0;
    while byte < 256 {
        let mut rest = byte as u32;
        let mut bit = 0;
        while bit < 8 {
            rest = (rest >> 1) ^ if rest & 1 == 1 { 0xedb8_8320 } else { 0 };
            bit += 1;
        }
        table[byte] = rest;
        byte += 1;
    }
    table
}

/// Lines of changes, each of which is marked by the check of all changes so far.
pub struct Lines {
    check: u32,
    /// The lines that are not in the file yet.
    pending: Vec<u8>,
    /// How many bytes were added in all.
    added: u64,
}

impl Lines {
    pub fn new() -> Lines {
        Lines {
            check: u32::MAX,
            pending: Vec::new(),
            added: 0,
        }
    }

    /// Adds the line of a change.
    pub fn add(&mut self, change: &[u8]) {
        self.note(change);
        let before = self.pending.len();
        self.pending.extend(change);
        self.pending.extend(mark(self.check));
        self.pending.push(b'\n');
        self.added += (self.pending.len() - before) as u64;
    }

    /// How many bytes were added in all.
    pub fn added(&self) -> u64 {
        self.added
    }

    /// The lines that are not in the file yet, which the caller writes.
    pub fn take(&mut self) -> Vec<u8> {
        std::mem::take(&mut self.pending)
    }

    fn note(&mut self, change: &[u8]) {
        for byte in change {
            self.check =
                (self.check >> 8) ^ EFFECTS[((self.check ^ u32::from(*byte)) & 255) as usize];
        }
    }
}

fn mark(check: u32) -> [u8; MARK] {
    let mut mark = *b" #00000000";
    for (place, digit) in mark[2..].iter_mut().enumerate() {
        *digit = b"0123456789abcdef"[(!check >> (28 - 4 * place)) as usize & 15];
    }
    mark
}

/// The end of the text in the file, and the zeros after it.
pub struct Tail {
    file: File,
    end: u64,
    room: u64,
    /// How many of the bytes that were added are on the disk.
    pub synced: u64,
}

impl Tail {
    /// Writes a text to a new file, syncs it, and gives it the name of the journal.
    pub fn begin(path: &Path, text: &[u8]) -> io::Result<Tail> {
        let mut name = OsString::from(path);
        name.push(".new");
        let mut file = File::create(&name)?;
        file.write_all(text)?;
        file.write_all(&[0; AHEAD])?;
        file.sync_all()?;
        fs::rename(&name, path)?;
        File::open(path.parent().unwrap_or(Path::new(".")))?.sync_all()?;
        let end = text.len() as u64;
        Ok(Tail {
            file,
            end,
            room: end + AHEAD as u64,
            synced: 0,
        })
    }

    /// Writes lines over zeros, and syncs them.
    pub fn put(&mut self, lines: &[u8]) -> io::Result<()> {
        let end = self.end + lines.len() as u64;
        let is_full = end > self.room;
        while end > self.room {
            self.file.write_all_at(&[0; AHEAD], self.room)?;
            self.room += AHEAD as u64;
        }
        if is_full {
            self.file.sync_all()?;
        }
        self.file.write_all_at(lines, self.end)?;
        self.file.sync_data()?;
        self.end = end;
        self.synced += lines.len() as u64;
        Ok(())
    }
}

/// The text of a journal's file, its whole lines up to the first zero; the heading if there is no file.
pub fn read_text(path: &Path) -> io::Result<Vec<u8>> {
    let mut text = match fs::read(path) {
        Ok(found) => found,
        Err(error) if error.kind() == io::ErrorKind::NotFound => Vec::new(),
        Err(error) => return Err(error),
    };
    let end = text
        .iter()
        .position(|&byte| byte == 0)
        .unwrap_or(text.len());
    let whole = text[..end]
        .iter()
        .rposition(|&byte| byte == b'\n')
        .map_or(0, |last| last + 1);
    text.truncate(whole);
    if text.is_empty() {
        text.extend(HEADING);
    }
    Ok(text)
}

/// Carries out the changes of a text. Returns the check after them.
pub fn replay(text: &[u8], mut step: impl FnMut(Event) -> bool) -> io::Result<Lines> {
    let mut lines = Lines::new();
    let changes = text.strip_prefix(HEADING).ok_or_else(bad)?;
    for line in changes.split_inclusive(|&byte| byte == b'\n') {
        let (change, marked) = line.split_at(line.len().saturating_sub(MARK + 1));
        lines.note(change);
        if marked.strip_suffix(b"\n") != Some(&mark(lines.check)) {
            return Err(bad());
        }
        // a member that came to know the leader: the term was decided when it started
        if change.starts_with(b"know ") {
            continue;
        }
        if !step(parse_event(change).ok_or_else(bad)?) {
            return Err(bad());
        }
    }
    Ok(lines)
}

fn bad() -> io::Error {
    io::Error::other("the journal is bad")
}
