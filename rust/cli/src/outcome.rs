//! How a command ends, and the exit code that says it.

use std::io;

/// How a command that was carried out ends.
#[derive(Clone, Copy, Debug, PartialEq, Eq)]
pub enum Outcome {
    /// Done: 0.
    Done,
    /// A call or a text typed at the prompt was refused, and `--strict` asked to be told: 1.
    CallRefused,
    /// The batch or the store is refused, and what was printed says so: 3.
    Refused,
}

impl Outcome {
    /// The exit code.
    pub fn code(self) -> u8 {
        match self {
            Outcome::Done => 0,
            Outcome::CallRefused => 1,
            Outcome::Refused => 3,
        }
    }
}

/// Why a command stops early, with the sentence to be said.
#[derive(Debug)]
pub enum Stop {
    /// The arguments are not understood, or name what cannot be read or written: 2.
    Usage(String),
    /// What was read is refused: 3.
    Refused(String),
    /// What was to be printed cannot be written: 3, or 0 where nobody reads on.
    Output(io::Error),
}

impl From<io::Error> for Stop {
    fn from(error: io::Error) -> Stop {
        Stop::Output(error)
    }
}

impl Stop {
    /// The exit code.
    pub fn code(&self) -> u8 {
        match self {
            Stop::Usage(_) => 2,
            Stop::Output(error) if error.kind() == io::ErrorKind::BrokenPipe => 0,
            Stop::Refused(_) | Stop::Output(_) => 3,
        }
    }

    /// What to say, if there is something to say.
    pub fn sentence(&self) -> Option<String> {
        match self {
            Stop::Usage(why) | Stop::Refused(why) => Some(why.clone()),
            Stop::Output(error) if error.kind() == io::ErrorKind::BrokenPipe => None,
            Stop::Output(error) => Some(format!("cannot write: {error}")),
        }
    }
}

/// What every command gives.
pub type Ended = Result<Outcome, Stop>;
