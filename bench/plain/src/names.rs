//! What the lines name: nodes, groups and the two sides of a node.

use std::num::NonZeroU32;
use std::ops::{Index, IndexMut};

/// The number of a node, 1 to 4294967295.
#[derive(Clone, Copy, Debug, PartialEq, Eq, PartialOrd, Ord)]
pub struct NodeNo(NonZeroU32);

impl NodeNo {
    /// `None` for 0.
    pub fn new(number: u32) -> Option<NodeNo> {
        NonZeroU32::new(number).map(NodeNo)
    }

    pub fn get(self) -> u32 {
        self.0.get()
    }
}

/// The identity of a node, ordered by its weight and then by its number.
#[derive(Clone, Copy, Debug, PartialEq, Eq, PartialOrd, Ord)]
pub struct NodeId {
    weight: u16,
    number: NodeNo,
}

impl NodeId {
    /// The identity of weight 0; `None` for the number 0.
    pub fn new(number: u32) -> Option<NodeId> {
        NodeId::weighted(number, 0)
    }

    /// `None` for the number 0.
    pub fn weighted(number: u32, weight: u16) -> Option<NodeId> {
        let number = NodeNo::new(number)?;
        Some(NodeId { weight, number })
    }

    pub fn number(self) -> NodeNo {
        self.number
    }

    pub fn weight(self) -> u16 {
        self.weight
    }

    /// The plain number.
    pub fn get(self) -> u32 {
        self.number.get()
    }
}

/// The greatest length of a group's name in bytes.
const NAME_LENGTH: usize = 16;

/// The name of a group: 1 to 16 bytes of a to z, 0 to 9 and hyphen.
#[derive(Clone, Copy, Debug, PartialEq, Eq, Hash)]
pub struct GroupName {
    bytes: [u8; NAME_LENGTH],
    length: u8,
}

impl GroupName {
    /// `None` where the bytes are no name.
    pub fn from_bytes(name: &[u8]) -> Option<GroupName> {
        let allowed = |b: &u8| matches!(b, b'a'..=b'z' | b'0'..=b'9' | b'-');
        if name.is_empty() || name.len() > NAME_LENGTH || !name.iter().all(allowed) {
            return None;
        }
        let mut bytes = [0; NAME_LENGTH];
        bytes[..name.len()].copy_from_slice(name);
        Some(GroupName {
            bytes,
            length: name.len() as u8,
        })
    }

    pub fn bytes(&self) -> &[u8] {
        &self.bytes[..usize::from(self.length)]
    }
}

/// A side of a node.
#[derive(Clone, Copy, Debug, PartialEq, Eq)]
pub enum Side {
    Left,
    Right,
}

impl Side {
    pub fn other(self) -> Side {
        match self {
            Side::Left => Side::Right,
            Side::Right => Side::Left,
        }
    }
}

/// One value for each side of a node.
#[derive(Clone, Debug, Default)]
pub struct BothSides<T> {
    pub left: T,
    pub right: T,
}

impl<T> Index<Side> for BothSides<T> {
    type Output = T;

    fn index(&self, side: Side) -> &T {
        match side {
            Side::Left => &self.left,
            Side::Right => &self.right,
        }
    }
}

impl<T> IndexMut<Side> for BothSides<T> {
    fn index_mut(&mut self, side: Side) -> &mut T {
        match side {
            Side::Left => &mut self.left,
            Side::Right => &mut self.right,
        }
    }
}

#[cfg(test)]
mod tests {
    use super::*;

    #[test]
    fn names_have_one_to_sixteen_bytes() {
        assert_eq!(GroupName::from_bytes(b"a-0").unwrap().bytes(), b"a-0");
        assert!(GroupName::from_bytes(b"0123456789abcdef").is_some());
        assert!(GroupName::from_bytes(b"0123456789abcdefg").is_none());
        assert!(GroupName::from_bytes(b"").is_none());
        assert!(GroupName::from_bytes(b"A").is_none());
        assert!(GroupName::from_bytes(b"a_b").is_none());
    }

    #[test]
    fn no_node_is_zero() {
        assert!(NodeId::new(0).is_none());
        assert_eq!(NodeId::new(u32::MAX).unwrap().get(), u32::MAX);
    }

    #[test]
    fn a_weight_comes_before_a_number() {
        let id = |number, weight| NodeId::weighted(number, weight).unwrap();
        assert!(id(u32::MAX, 0) < id(1, 9));
        assert!(id(1, 9) < id(2, 9));
        assert_ne!(id(1, 9), id(1, 0));
    }
}
