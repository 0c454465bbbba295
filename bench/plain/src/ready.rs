//! Sets of links: those with something in flight, and those that are cut.

use crate::names::Side;

/// The greatest length of a ring.
pub const RING_LIMIT: usize = 256;

const WORD_BITS: usize = u64::BITS as usize;
const WORDS: usize = 2 * RING_LIMIT / WORD_BITS;

/// A link, named by its receiver: the position and the side from which the receiver takes.
#[derive(Clone, Copy, Debug, PartialEq, Eq)]
pub struct Link {
    pub receiver: usize,
    pub side: Side,
}

impl Link {
    /// The place in the order of links: receiver position, then left before right.
    fn place(self) -> usize {
        2 * self.receiver + usize::from(self.side == Side::Right)
    }

    fn at(place: usize) -> Link {
        let side = if place.is_multiple_of(2) {
            Side::Left
        } else {
            Side::Right
        };
        Link {
            receiver: place / 2,
            side,
        }
    }
}

/// A set of links of one ring, one bit each.
#[derive(Clone, Debug, Default)]
pub struct ReadyLinks {
    words: [u64; WORDS],
}

impl ReadyLinks {
    pub fn insert(&mut self, link: Link) {
        let place = link.place();
        self.words[place / WORD_BITS] |= 1 << (place % WORD_BITS);
    }

    pub fn remove(&mut self, link: Link) {
        let place = link.place();
        self.words[place / WORD_BITS] &= !(1 << (place % WORD_BITS));
    }

    pub fn has(&self, link: Link) -> bool {
        let place = link.place();
        self.words[place / WORD_BITS] & 1 << (place % WORD_BITS) != 0
    }

    /// The least link of the set.
    pub fn least(&self) -> Option<Link> {
        let word = self.words.iter().position(|&word| word != 0)?;
        let bit = self.words[word].trailing_zeros() as usize;
        Some(Link::at(word * WORD_BITS + bit))
    }
}

#[cfg(test)]
mod tests {
    use super::*;

    #[test]
    fn the_least_link_has_the_least_receiver_and_left_comes_first() {
        let link = |receiver, side| Link { receiver, side };
        let mut ready = ReadyLinks::default();
        assert_eq!(ready.least(), None);
        let in_order = [
            link(0, Side::Right),
            link(31, Side::Right),
            link(32, Side::Left),
            link(32, Side::Right),
            link(255, Side::Right),
        ];
        in_order.iter().rev().for_each(|&each| ready.insert(each));
        for each in in_order {
            assert_eq!(ready.least(), Some(each));
            ready.remove(each);
        }
        assert_eq!(ready.least(), None);
    }
}
