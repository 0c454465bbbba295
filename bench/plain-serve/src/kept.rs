//! A table with its journal.

use crate::HELD;
use crate::journal::{Tail, read_text};
use crate::table::Table;
use std::io;
use std::path::Path;
use std::sync::{Mutex, MutexGuard};

/// A table whose changes are on the disk before their replies are written.
pub struct Kept {
    table: Mutex<Table>,
    tail: Mutex<Tail>,
    /// Whether the table is free at a sync, so that one sync serves many.
    is_shared: bool,
}

impl Kept {
    /// The table that the journal at this path gives, which is begun anew.
    pub fn open(path: &Path, is_shared: bool) -> io::Result<Kept> {
        let text = read_text(path)?;
        Ok(Kept {
            table: Mutex::new(Table::recovered(&text)?),
            tail: Mutex::new(Tail::begin(path, &text)?),
            is_shared,
        })
    }

    pub fn table(&self) -> &Mutex<Table> {
        &self.table
    }

    /// Has all lines that were added so far on the disk.
    pub fn settle(&self) -> io::Result<()> {
        if self.is_shared {
            self.settle_shared()
        } else {
            let mut table = self.lock_table();
            let lines = take_lines(&mut table);
            if lines.is_empty() {
                return Ok(());
            }
            self.tail.lock().expect(HELD).put(&lines)
        }
    }

    fn settle_shared(&self) -> io::Result<()> {
        let added = self.lock_table().journal().map_or(0, |lines| lines.added());
        let mut tail = self.tail.lock().expect(HELD);
        if tail.synced >= added {
            return Ok(());
        }
        let lines = take_lines(&mut self.lock_table());
        tail.put(&lines)
    }

    fn lock_table(&self) -> MutexGuard<'_, Table> {
        self.table.lock().expect(HELD)
    }
}

fn take_lines(table: &mut Table) -> Vec<u8> {
    table
        .journal()
        .map(|lines| lines.take())
        .unwrap_or_default()
}
