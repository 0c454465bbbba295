//! What all sessions share: the groups, and the history where it is kept.

use crate::grammar::{Event, parse_event};
use crate::history::{Entry, Outcome};
use crate::journal::{self, Lines};
use crate::keep::Journals;
use crate::refusal::Refusal;
use crate::reply::Reply;
use crate::service::Service;
use crate::world;
use std::io;

/// How many deliveries end every election.
const ENOUGH: u64 = 1_000_000_000;

/// The groups, and what was asked of them.
pub struct Table {
    service: Service,
    history: Option<Vec<Entry>>,
    journal: Option<Lines>,
}

impl Table {
    pub fn without_history() -> Table {
        Table {
            service: Service::new(world::begin::<Journals>),
            history: None,
            journal: None,
        }
    }

    pub fn with_history() -> Table {
        Table {
            history: Some(Vec::new()),
            ..Table::without_history()
        }
    }

    /// The table after the changes of a journal's text. Its further changes are lines for the journal.
    pub fn recovered(text: &[u8]) -> io::Result<Table> {
        let mut table = Table::without_history();
        let journal = journal::replay(text, |event| table.step(event))?;
        table.journal = Some(journal);
        Ok(table)
    }

    /// The lines for the journal.
    pub fn journal(&mut self) -> Option<&mut Lines> {
        self.journal.as_mut()
    }

    /// Carries out a change; whether it was granted.
    fn step(&mut self, event: Event) -> bool {
        let is_granted = matches!(self.service.step(event), Reply::Done | Reply::Term(_));
        if let Event::Start(group) = event {
            self.service.step(Event::Drain(group, ENOUGH));
        }
        is_granted
    }

    /// Appends the reply to the command that a line spells, or that the line is none. A term that starts is decided
    /// at once.
    pub fn answer(&mut self, session: u32, line: &[u8], event: Option<Event>, out: &mut Vec<u8>) {
        let Some(event) = event else {
            Reply::Refused(Refusal::BadLine).print(out);
            return;
        };
        let reply = self.service.step(event);
        reply.print(out);
        if let Some(journal) = &mut self.journal
            && matches!(reply, Reply::Done | Reply::Term(_))
        {
            journal.add(line);
        }
        if let Some(history) = &mut self.history {
            let outcome = Outcome::of(&reply);
            history.push(Entry {
                session,
                event,
                outcome,
            });
        }
        if let Event::Start(group) = event {
            self.service.step(Event::Drain(group, ENOUGH));
        }
    }
}

/// The command that a line spells; schedule lines are none.
pub fn parse_command(line: &[u8]) -> Option<Event> {
    parse_event(line).filter(|event| {
        !matches!(
            event,
            Event::Deliver(..) | Event::Cut(..) | Event::Pending(_) | Event::Drain(..)
        )
    })
}
