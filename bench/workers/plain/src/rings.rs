//! The groups and their rings, the same as those of `worker_rings`.

use crate::names::{GroupName, NodeId, Side};

/// What a term is about.
pub struct Charter {
    pub group: GroupName,
    pub term: u16,
    pub ring: Vec<NodeId>,
}

impl Charter {
    /// The position next to another on a side.
    pub fn neighbour(&self, position: usize, side: Side) -> usize {
        let last = self.ring.len() - 1;
        match side {
            Side::Left if position == 0 => last,
            Side::Left => position - 1,
            Side::Right if position == last => 0,
            Side::Right => position + 1,
        }
    }
}

/// Where a member stands among those of its group.
fn rank(group: u32, member: u32) -> u32 {
    let mixed = member
        .wrapping_add(group.wrapping_mul(0x9E37_79B9))
        .wrapping_mul(0x85EB_CA6B);
    (mixed ^ (mixed >> 13)).wrapping_mul(0xC2B2_AE35)
}

/// The charter of the group with this number.
pub fn charter(group: u32, members: u32) -> Charter {
    let mut ranked: Vec<(u32, u32)> = (1..=members)
        .map(|member| (rank(group, member), member))
        .collect();
    ranked.sort_unstable();
    let ring = ranked
        .iter()
        .filter_map(|(_, member)| NodeId::new(*member))
        .collect();
    let group = GroupName::from_bytes(format!("g{group}").as_bytes()).expect("a short name");
    Charter {
        group,
        term: 1,
        ring,
    }
}
