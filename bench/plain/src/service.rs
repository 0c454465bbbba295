//! The book of groups together with the running term of each group.

use crate::algorithms::Kind;
use crate::book::Book;
use crate::grammar::Event;
use crate::names::{GroupName, NodeId, NodeNo, Side};
use crate::ready::Link;
use crate::refusal::Refusal;
use crate::reply::Reply;
use crate::world::{Begin, Delivery, RunningTerm};

/// The book, and the last term of each group at the group's place in the book.
pub struct Service {
    begin: Begin,
    book: Book,
    running: Vec<Option<Box<dyn RunningTerm>>>,
}

impl Service {
    /// A service without a group, which starts its terms in this way.
    pub fn new(begin: Begin) -> Service {
        Service {
            begin,
            book: Book::default(),
            running: Vec::new(),
        }
    }

    /// Takes one event; a refusal changes nothing.
    pub fn step(&mut self, event: Event) -> Reply<'_> {
        self.answer(event).unwrap_or_else(Reply::Refused)
    }

    fn answer(&mut self, event: Event) -> Result<Reply<'_>, Refusal> {
        match event {
            Event::Create(group, kind) => self.create(group, kind),
            Event::Join(group, node) => self.join(&group, node),
            Event::Leave(group, node) => self.leave(&group, node),
            Event::Start(group) => self.start(&group),
            Event::Who(group, node) => self.who(&group, node),
            Event::Members(group) => Ok(Reply::Members(self.book.group(&group)?.members())),
            Event::Terms(group) => Ok(Reply::Terms(self.book.group(&group)?.terms())),
            Event::Groups => Ok(Reply::Groups(self.book.groups())),
            Event::Deliver(group, node, side) => self.deliver(&group, node, side),
            Event::Cut(group, node, side) => self.cut(&group, node, side),
            Event::Pending(group) => {
                let place = self.book.place(&group)?;
                Ok(Reply::Pending(self.running_at(place)?.pending()))
            }
            Event::Drain(group, count) => self.drain(&group, count),
        }
    }

    fn create(&mut self, group: GroupName, kind: Kind) -> Result<Reply<'_>, Refusal> {
        self.book.create(group, kind)?;
        self.running.push(None);
        Ok(Reply::Done)
    }

    fn join(&mut self, group: &GroupName, node: NodeId) -> Result<Reply<'_>, Refusal> {
        self.book.group_mut(group)?.join(node)?;
        Ok(Reply::Done)
    }

    fn leave(&mut self, group: &GroupName, node: NodeNo) -> Result<Reply<'_>, Refusal> {
        self.book.group_mut(group)?.leave(node)?;
        Ok(Reply::Done)
    }

    fn start(&mut self, group: &GroupName) -> Result<Reply<'_>, Refusal> {
        let place = self.book.place(group)?;
        let group = self.book.group_at(place);
        let term = group.start()?;
        self.running[place] = Some((self.begin)(group.kind(), group.last_term()?.ring()));
        Ok(Reply::Term(term))
    }

    fn who(&self, group: &GroupName, node: NodeNo) -> Result<Reply<'_>, Refusal> {
        let standing = self.book.group(group)?.who(node)?;
        Ok(match standing.leader {
            Some(leader) => Reply::Leader {
                term: standing.term,
                leader,
            },
            None => Reply::Undecided(standing.term),
        })
    }

    fn deliver(
        &mut self,
        group: &GroupName,
        node: NodeNo,
        side: Side,
    ) -> Result<Reply<'_>, Refusal> {
        let place = self.book.place(group)?;
        let receiver = self.book.group(group)?.last_term()?.position(node)?;
        match self.running_at(place)?.deliver(Link { receiver, side }) {
            Delivery::OneWay => Err(Refusal::OneWay),
            Delivery::Idle => Ok(Reply::Idle),
            Delivery::Moved(None) => Ok(Reply::Moved),
            Delivery::Moved(Some(leader)) => {
                self.book
                    .group_at(place)
                    .last_term_mut()?
                    .note(receiver, leader);
                Ok(Reply::Moved)
            }
        }
    }

    fn cut(&mut self, group: &GroupName, node: NodeNo, side: Side) -> Result<Reply<'_>, Refusal> {
        let place = self.book.place(group)?;
        let receiver = self.book.group(group)?.last_term()?.position(node)?;
        if !self.running_at(place)?.cut(Link { receiver, side }) {
            return Err(Refusal::OneWay);
        }
        Ok(Reply::Done)
    }

    fn drain(&mut self, group: &GroupName, count: u64) -> Result<Reply<'_>, Refusal> {
        let place = self.book.place(group)?;
        let term = self.book.group_at(place).last_term_mut()?;
        let running = self.running[place].as_mut().ok_or(Refusal::NoTerm)?;
        let done = running.drain(count, &mut |position, leader| term.note(position, leader));
        Ok(Reply::Drained {
            done,
            left: running.pending(),
        })
    }

    fn running_at(&mut self, place: usize) -> Result<&mut Box<dyn RunningTerm>, Refusal> {
        self.running[place].as_mut().ok_or(Refusal::NoTerm)
    }
}
