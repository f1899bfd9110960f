//! Where a list of calls stopped, and why.

use core::error::Error;
use core::fmt;

use crate::{Call, Fault, Refusal};

/// Why [`run_all`](crate::Store::run_all) did not come to the end of its list.
#[derive(Clone, Copy, Debug, PartialEq, Eq, Hash)]
#[must_use]
pub enum Stopped {
    /// The store is refused, and no call is run.
    Store(Refusal),
    /// A call is refused. Those before it are done, and none after it is run.
    Call {
        /// The place of the call in the list, from 0.
        at: usize,
        /// The call itself.
        call: Call,
        /// Why it is refused.
        fault: Fault,
    },
}

impl fmt::Display for Stopped {
    fn fmt(&self, f: &mut fmt::Formatter<'_>) -> fmt::Result {
        match self {
            Stopped::Store(refusal) => refusal.fmt(f),
            Stopped::Call { at, call, fault } => write!(f, "call {at}, {call}: {fault}"),
        }
    }
}

impl Error for Stopped {
    fn source(&self) -> Option<&(dyn Error + 'static)> {
        match self {
            Stopped::Store(refusal) => Some(refusal),
            Stopped::Call { fault, .. } => Some(fault),
        }
    }
}

impl From<Refusal> for Stopped {
    fn from(refusal: Refusal) -> Self {
        Stopped::Store(refusal)
    }
}
