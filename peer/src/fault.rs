//! Why a file is refused.

use std::io;

#[derive(Debug, Clone, PartialEq)]
pub struct Fault {
    /// Which file: `cables`, `script` or `table`.
    pub file: &'static str,
    pub number: u8,
    pub offset: usize,
    pub cause: String,
}

impl Fault {
    pub fn new(file: &'static str, number: u8, offset: usize, cause: impl Into<String>) -> Fault {
        Fault {
            file,
            number,
            offset,
            cause: cause.into(),
        }
    }

    /// The line of a refusal, without its newline.
    pub fn line(&self) -> String {
        format!(
            "refused {} at byte {} of {}: {}",
            self.number, self.offset, self.file, self.cause
        )
    }
}

/// What ends a run early: a fault in a file, or output that can't be written.
#[derive(Debug)]
pub enum Stop {
    Fault(Fault),
    Output(io::Error),
}

impl From<Fault> for Stop {
    fn from(fault: Fault) -> Stop {
        Stop::Fault(fault)
    }
}

impl From<io::Error> for Stop {
    fn from(error: io::Error) -> Stop {
        Stop::Output(error)
    }
}
