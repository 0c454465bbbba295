//! The groups in order of creation, with their members and terms.

use crate::algorithms::Kind;
use crate::names::{GroupName, NodeId, NodeNo};
use crate::ready::RING_LIMIT;
use crate::refusal::Refusal;
use std::collections::HashMap;

const GROUP_LIMIT: usize = 256;
const TERM_LIMIT: usize = 1000;

/// One term: its frozen ring, its leader, and who is informed.
pub struct Term {
    ring: Vec<NodeId>,
    leader: Option<NodeId>,
    informed: Vec<bool>,
}

impl Term {
    pub fn ring(&self) -> &[NodeId] {
        &self.ring
    }

    pub fn leader(&self) -> Option<NodeId> {
        self.leader
    }

    pub fn position(&self, node: NodeNo) -> Result<usize, Refusal> {
        self.ring
            .iter()
            .position(|member| member.number() == node)
            .ok_or(Refusal::NotInTerm)
    }

    /// The member at this position now knows the leader.
    pub fn note(&mut self, position: usize, leader: NodeId) {
        self.leader = Some(leader);
        self.informed[position] = true;
    }

    fn leader_at(&self, position: usize) -> Option<NodeId> {
        self.leader.filter(|_| self.informed[position])
    }
}

/// What one member of the last term answers.
pub struct Standing {
    pub term: usize,
    pub leader: Option<NodeId>,
}

pub struct Group {
    name: GroupName,
    kind: Kind,
    members: Vec<NodeId>,
    terms: Vec<Term>,
}

impl Group {
    pub fn name(&self) -> &GroupName {
        &self.name
    }

    pub fn kind(&self) -> Kind {
        self.kind
    }

    pub fn members(&self) -> &[NodeId] {
        &self.members
    }

    pub fn terms(&self) -> &[Term] {
        &self.terms
    }

    pub fn join(&mut self, node: NodeId) -> Result<(), Refusal> {
        let number = node.number();
        if self.members.iter().any(|member| member.number() == number) {
            return Err(Refusal::Member);
        }
        if self.members.len() >= RING_LIMIT {
            return Err(Refusal::RingFull);
        }
        self.members.push(node);
        Ok(())
    }

    pub fn leave(&mut self, node: NodeNo) -> Result<(), Refusal> {
        let mut members = self.members.iter();
        let place = members.position(|member| member.number() == node);
        self.members.remove(place.ok_or(Refusal::NotMember)?);
        Ok(())
    }

    /// Starts a term on the members as they stand; the answer is its number.
    pub fn start(&mut self) -> Result<usize, Refusal> {
        if self.members.is_empty() {
            return Err(Refusal::Empty);
        }
        if self.terms.len() >= TERM_LIMIT {
            return Err(Refusal::TermLimit);
        }
        let ring = self.members.clone();
        let informed = vec![false; ring.len()];
        self.terms.push(Term {
            ring,
            leader: None,
            informed,
        });
        Ok(self.terms.len())
    }

    pub fn last_term(&self) -> Result<&Term, Refusal> {
        self.terms.last().ok_or(Refusal::NoTerm)
    }

    pub fn last_term_mut(&mut self) -> Result<&mut Term, Refusal> {
        self.terms.last_mut().ok_or(Refusal::NoTerm)
    }

    pub fn who(&self, node: NodeNo) -> Result<Standing, Refusal> {
        let last = self.last_term()?;
        let position = last.position(node)?;
        Ok(Standing {
            term: self.terms.len(),
            leader: last.leader_at(position),
        })
    }
}

/// All groups in order of creation.
#[derive(Default)]
pub struct Book {
    groups: Vec<Group>,
    places: HashMap<GroupName, usize>,
}

impl Book {
    pub fn groups(&self) -> &[Group] {
        &self.groups
    }

    pub fn create(&mut self, name: GroupName, kind: Kind) -> Result<(), Refusal> {
        if self.places.contains_key(&name) {
            return Err(Refusal::Exists);
        }
        if self.groups.len() >= GROUP_LIMIT {
            return Err(Refusal::GroupLimit);
        }
        self.places.insert(name, self.groups.len());
        self.groups.push(Group {
            name,
            kind,
            members: Vec::new(),
            terms: Vec::new(),
        });
        Ok(())
    }

    /// The place of a group in the order of creation.
    pub fn place(&self, name: &GroupName) -> Result<usize, Refusal> {
        self.places.get(name).copied().ok_or(Refusal::NoGroup)
    }

    pub fn group(&self, name: &GroupName) -> Result<&Group, Refusal> {
        self.place(name).map(|place| &self.groups[place])
    }

    pub fn group_at(&mut self, place: usize) -> &mut Group {
        &mut self.groups[place]
    }

    pub fn group_mut(&mut self, name: &GroupName) -> Result<&mut Group, Refusal> {
        self.place(name).map(|place| &mut self.groups[place])
    }
}
