//! How a call ends.

/// Of several parts of the work the worst counts: `Failed` before `Refused` before `Answered`.
#[derive(Clone, Copy, Debug, PartialEq, Eq)]
pub enum Status {
    Answered,
    Refused,
    Failed,
    Misused,
}

impl Status {
    pub fn number(self) -> i32 {
        match self {
            Status::Answered => 0,
            Status::Failed => 1,
            Status::Misused => 2,
            Status::Refused => 3,
        }
    }

    fn weight(self) -> u8 {
        match self {
            Status::Answered => 0,
            Status::Refused => 1,
            Status::Failed => 2,
            Status::Misused => 3,
        }
    }

    pub fn and(self, other: Status) -> Status {
        if other.weight() > self.weight() {
            other
        } else {
            self
        }
    }
}

/// What ends a call before its work is done: a sentence for standard error.
#[derive(Debug)]
pub enum Stop {
    Failed(String),
    Misused { sentence: String, usage: String },
}

pub fn failed<T>(sentence: impl Into<String>) -> Result<T, Stop> {
    Err(Stop::Failed(sentence.into()))
}
