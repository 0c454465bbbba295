//! Peterson (PetersonLeader of Lynch, Distributed Algorithms, 15.1.3): an active node looks at
//! three neighbouring values and stays active, with the middle one, where that is the greatest;
//! else it becomes a relay.

use super::{Algorithm, Sends};
use crate::names::{NodeId, Side};

enum Mode {
    Active { own: NodeId, second: Option<NodeId> },
    Relay,
}

pub struct Peterson {
    me: NodeId,
    mode: Mode,
    chosen: bool,
}

impl Algorithm for Peterson {
    type Message = NodeId;

    const TWO_WAY: bool = false;

    fn start(me: NodeId) -> (Peterson, Sends<NodeId>) {
        let mode = Mode::Active {
            own: me,
            second: None,
        };
        (
            Peterson {
                me,
                mode,
                chosen: false,
            },
            Sends::to_right(me),
        )
    }

    fn receive(&mut self, side: Side, value: NodeId) -> Sends<NodeId> {
        if side == Side::Right {
            return Sends::nothing();
        }
        match self.mode {
            Mode::Relay => Sends::to_right(value),
            Mode::Active { own, second: None } => {
                self.mode = Mode::Active {
                    own,
                    second: Some(value),
                };
                self.chosen |= value == own;
                Sends::to_right(value)
            }
            Mode::Active {
                own,
                second: Some(second),
            } if second > own && second > value => {
                self.mode = Mode::Active {
                    own: second,
                    second: None,
                };
                Sends::to_right(second)
            }
            Mode::Active { .. } => {
                self.mode = Mode::Relay;
                Sends::nothing()
            }
        }
    }

    /// The own identity of the chosen node, not the value that it carries.
    fn decision(&self) -> Option<NodeId> {
        self.chosen.then_some(self.me)
    }
}
