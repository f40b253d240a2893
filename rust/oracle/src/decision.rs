//! The four decisions, their operators and their two orders.
//!
//! Everything here is written as the specification words it: with the two claims,
//! "grants" and "denies", where it names them, and by the decisions where it does not.

/// A decision: which of the two claims "grants" and "denies" are made.
#[derive(Clone, Copy, Debug, PartialEq, Eq)]
#[repr(u8)]
pub enum Decision {
    /// Unspecified: neither claim.
    U = 0,
    /// Deny: only "denies".
    D = 1,
    /// Grant: only "grants".
    G = 2,
    /// Conflict: both claims.
    C = 3,
}

use Decision::{C, D, G, U};

impl Decision {
    /// All four, in the order of their codes.
    pub const ALL: [Decision; 4] = [U, D, G, C];

    /// The decision that makes exactly these claims.
    fn from_claims(grants: bool, denies: bool) -> Decision {
        match (grants, denies) {
            (false, false) => U,
            (false, true) => D,
            (true, false) => G,
            (true, true) => C,
        }
    }

    fn grants(self) -> bool {
        matches!(self, G | C)
    }

    fn denies(self) -> bool {
        matches!(self, D | C)
    }

    /// The code of the decision: 0 for u, 1 for d, 2 for g, 3 for c.
    pub fn code(self) -> u32 {
        self as u32
    }
}

/// An operator on one row.
#[derive(Clone, Copy, Debug)]
pub enum Unary {
    Negation,
    Conflation,
    ClosedDefault,
    OpenDefault,
}

impl Unary {
    /// What the operator makes of `x`.
    pub fn apply(self, x: Decision) -> Decision {
        match self {
            Unary::Negation => Decision::from_claims(x.denies(), x.grants()),
            Unary::Conflation => match x {
                U => C,
                C => U,
                G | D => x,
            },
            Unary::ClosedDefault => default_to(D, x),
            Unary::OpenDefault => default_to(G, x),
        }
    }
}

/// `x` where it is g or d, and `default` where it is u or c.
fn default_to(default: Decision, x: Decision) -> Decision {
    match x {
        U | C => default,
        G | D => x,
    }
}

/// An operator on two rows.
#[derive(Clone, Copy, Debug)]
pub enum Binary {
    TruthMeet,
    TruthJoin,
    KnowledgeMeet,
    KnowledgeJoin,
    Implication,
    Guard,
    Override(Decision),
}

impl Binary {
    /// What the operator makes of `x`, its first row, and `y`, its second.
    pub fn apply(self, x: Decision, y: Decision) -> Decision {
        let both_grant = x.grants() && y.grants();
        let both_deny = x.denies() && y.denies();
        let either_grants = x.grants() || y.grants();
        let either_denies = x.denies() || y.denies();
        match self {
            Binary::TruthMeet => Decision::from_claims(both_grant, either_denies),
            Binary::TruthJoin => Decision::from_claims(either_grants, both_deny),
            Binary::KnowledgeMeet => Decision::from_claims(both_grant, both_deny),
            Binary::KnowledgeJoin => Decision::from_claims(either_grants, either_denies),
            Binary::Implication => choose(x.grants(), y, G),
            Binary::Guard => choose(x.grants(), y, U),
            Binary::Override(value) => choose(x == value, y, x),
        }
    }
}

fn choose(condition: bool, then: Decision, otherwise: Decision) -> Decision {
    if condition {
        then
    } else {
        otherwise
    }
}

/// One of the two orders in which decisions are compared.
#[derive(Clone, Copy, Debug)]
pub enum Order {
    Truth,
    Knowledge,
}

impl Order {
    /// Is `x` at or below `y`?
    pub fn at_or_below(self, x: Decision, y: Decision) -> bool {
        // "A only if B" reads: not A, or B.
        let grants_only_if = !x.grants() || y.grants();
        match self {
            Order::Truth => grants_only_if && (!y.denies() || x.denies()),
            Order::Knowledge => grants_only_if && (!x.denies() || y.denies()),
        }
    }
}
