//! The lines that answer.

use crate::book::{Group, Term};
use crate::names::NodeId;
use crate::refusal::Refusal;

/// The answer to one event, with the lists that it shows borrowed from the book.
pub enum Reply<'a> {
    Done,
    Term(usize),
    Leader { term: usize, leader: NodeId },
    Undecided(usize),
    Members(&'a [NodeId]),
    Terms(&'a [Term]),
    Groups(&'a [Group]),
    Moved,
    Idle,
    Pending(u64),
    Drained { done: u64, left: u64 },
    Refused(Refusal),
}

impl Reply<'_> {
    /// Appends the reply's line with its LF.
    pub fn print(&self, out: &mut Vec<u8>) {
        match self {
            Reply::Done => out.extend(b"ok"),
            Reply::Term(term) => print_number(out, b"term ", *term as u64),
            Reply::Leader { term, leader } => {
                print_number(out, b"leader ", *term as u64);
                print_node(out, b" ", *leader);
            }
            Reply::Undecided(term) => print_number(out, b"undecided ", *term as u64),
            Reply::Members(members) => print_members(out, members),
            Reply::Terms(terms) => print_terms(out, terms),
            Reply::Groups(groups) => print_groups(out, groups),
            Reply::Moved => out.extend(b"moved"),
            Reply::Idle => out.extend(b"idle"),
            Reply::Pending(number) => print_number(out, b"pending ", *number),
            Reply::Drained { done, left } => {
                print_number(out, b"drained ", *done);
                print_number(out, b" left ", *left);
            }
            Reply::Refused(refusal) => {
                out.extend(b"no ");
                out.extend(refusal.word().as_bytes());
            }
        }
        out.push(b'\n');
    }
}

fn print_members(out: &mut Vec<u8>, members: &[NodeId]) {
    out.extend(b"members");
    for member in members {
        print_node(out, b" ", *member);
    }
}

fn print_terms(out: &mut Vec<u8>, terms: &[Term]) {
    out.extend(b"terms");
    for (number, term) in (1..).zip(terms) {
        print_number(out, b" ", number);
        match term.leader() {
            Some(leader) => print_node(out, b":", leader),
            None => out.extend(b":-"),
        }
    }
}

fn print_groups(out: &mut Vec<u8>, groups: &[Group]) {
    out.extend(b"groups");
    for group in groups {
        out.push(b' ');
        out.extend(group.name().bytes());
    }
}

/// Appends the words before an identity, its number, and behind a slash its weight where it has one.
fn print_node(out: &mut Vec<u8>, before: &[u8], node: NodeId) {
    print_number(out, before, node.get().into());
    if node.weight() > 0 {
        print_number(out, b"/", node.weight().into());
    }
}

/// Appends the words before a number, then the number in decimal.
fn print_number(out: &mut Vec<u8>, before: &[u8], number: u64) {
    let mut digits = [0; 20];
    let mut first = digits.len();
    let mut rest = number;
    loop {
        first -= 1;
        digits[first] = b'0' + (rest % 10) as u8;
        rest /= 10;
        if rest == 0 {
            break;
        }
    }
    out.extend(before);
    out.extend(&digits[first..]);
}

#[cfg(test)]
mod tests {
    use super::*;

    #[test]
    fn numbers_are_printed_in_decimal() {
        let printed = |number| {
            let mut out = Vec::new();
            print_number(&mut out, b"", number);
            String::from_utf8(out).unwrap()
        };
        for number in [0, 9, 10, 100, 4_294_967_295, u64::MAX] {
            assert_eq!(printed(number), number.to_string());
        }
    }
}
