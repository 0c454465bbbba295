//! Hirschberg-Sinclair (HS of Lynch, Distributed Algorithms, 3.4) without rounds: a node asks
//! twice as far to both sides each time that both answers of its last question came back.

use super::{Algorithm, Sends};
use crate::names::{BothSides, NodeId, Side};
use std::cmp::Ordering;

/// No token is sent for a phase beyond this one.
const LAST_PHASE: u32 = 16;

/// A token on its way out, with the number of links that it may still go, or on its way back.
#[derive(Clone, Copy, Debug, PartialEq, Eq)]
pub enum Token {
    Out { id: NodeId, hops: u32 },
    Back { id: NodeId },
}

pub struct Hirschberg {
    me: NodeId,
    came_back: BothSides<u32>,
    decision: Option<NodeId>,
}

impl Hirschberg {
    fn phase(&self) -> u32 {
        self.came_back.left.min(self.came_back.right)
    }

    fn receive_out(&mut self, side: Side, id: NodeId, hops: u32) -> Sends<Token> {
        match id.cmp(&self.me) {
            Ordering::Less => return Sends::nothing(),
            Ordering::Greater => {}
            Ordering::Equal => {
                self.decision = Some(self.me);
                return Sends::nothing();
            }
        }
        match hops {
            0 => Sends::nothing(),
            1 => Sends::to(side, Token::Back { id }),
            _ => Sends::to(side.other(), Token::Out { id, hops: hops - 1 }),
        }
    }

    fn receive_back(&mut self, side: Side, id: NodeId) -> Sends<Token> {
        if id != self.me {
            return Sends::to(side.other(), Token::Back { id });
        }
        let before = self.phase();
        let count = &mut self.came_back[side];
        *count = (*count + 1).min(LAST_PHASE);
        let phase = self.phase();
        if phase == before {
            return Sends::nothing();
        }
        Sends::to_both(Token::Out {
            id,
            hops: 1 << phase,
        })
    }
}

impl Algorithm for Hirschberg {
    type Message = Token;

    const TWO_WAY: bool = true;

    fn start(me: NodeId) -> (Hirschberg, Sends<Token>) {
        let state = Hirschberg {
            me,
            came_back: BothSides::default(),
            decision: None,
        };
        (state, Sends::to_both(Token::Out { id: me, hops: 1 }))
    }

    fn receive(&mut self, side: Side, token: Token) -> Sends<Token> {
        match token {
            Token::Out { id, hops } => self.receive_out(side, id, hops),
            Token::Back { id } => self.receive_back(side, id),
        }
    }

    fn decision(&self) -> Option<NodeId> {
        self.decision
    }
}

#[cfg(test)]
mod tests {
    use super::*;

    fn node(number: u32) -> NodeId {
        NodeId::new(number).unwrap()
    }

    #[test]
    fn a_token_turns_round_at_its_last_link() {
        let (mut state, _) = Hirschberg::start(node(3));
        let out = |hops| Token::Out { id: node(5), hops };
        assert_eq!(
            state.receive(Side::Left, out(2)),
            Sends::to(Side::Right, out(1))
        );
        assert_eq!(
            state.receive(Side::Left, out(1)),
            Sends::to(Side::Left, Token::Back { id: node(5) })
        );
        assert_eq!(state.receive(Side::Left, out(0)), Sends::nothing());
    }

    #[test]
    fn no_token_is_sent_beyond_the_last_phase() {
        let (mut state, _) = Hirschberg::start(node(3));
        let back = Token::Back { id: node(3) };
        for phase in 1..=LAST_PHASE {
            assert_eq!(state.receive(Side::Left, back), Sends::nothing());
            let farther = Token::Out {
                id: node(3),
                hops: 1 << phase,
            };
            assert_eq!(state.receive(Side::Right, back), Sends::to_both(farther));
        }
        assert_eq!(state.receive(Side::Left, back), Sends::nothing());
        assert_eq!(state.receive(Side::Right, back), Sends::nothing());
    }
}
