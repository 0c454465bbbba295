//! Why a command changes nothing.

/// The refusals that a replay with ample memory can answer.
#[derive(Clone, Copy, Debug, PartialEq, Eq)]
pub enum Refusal {
    BadLine,
    NoGroup,
    Exists,
    GroupLimit,
    Member,
    NotMember,
    RingFull,
    Empty,
    TermLimit,
    NoTerm,
    NotInTerm,
    OneWay,
}

impl Refusal {
    /// The word of this refusal in a reply line.
    pub fn word(self) -> &'static str {
        match self {
            Refusal::BadLine => "bad-line",
            Refusal::NoGroup => "no-group",
            Refusal::Exists => "exists",
            Refusal::GroupLimit => "group-limit",
            Refusal::Member => "member",
            Refusal::NotMember => "not-member",
            Refusal::RingFull => "ring-full",
            Refusal::Empty => "empty",
            Refusal::TermLimit => "term-limit",
            Refusal::NoTerm => "no-term",
            Refusal::NotInTerm => "not-in-term",
            Refusal::OneWay => "one-way",
        }
    }
}
