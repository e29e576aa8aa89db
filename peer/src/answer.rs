//! What calls answer: answers, refusals and counts, with their printed forms.

use crate::store::{print_refusal, StoreFault};
use std::fmt;

#[derive(Clone, Copy, Debug, PartialEq, Eq)]
pub enum Status {
    Ok,
    Blocked,
    DeadlineReached,
}

impl fmt::Display for Status {
    fn fmt(&self, f: &mut fmt::Formatter) -> fmt::Result {
        f.write_str(match self {
            Status::Ok => "OK",
            Status::Blocked => "BLOCKED",
            Status::DeadlineReached => "DEADLINE_REACHED",
        })
    }
}

#[derive(Clone, Copy, Debug, PartialEq, Eq)]
pub struct Answer {
    pub status: Status,
    /// The number of the message sent or brought.
    pub message: Option<u32>,
    /// How many bytes were brought.
    pub length: Option<usize>,
    /// The number of the message that a send displaced.
    pub displaced: Option<u32>,
}

impl Answer {
    /// An answer that is a status alone.
    pub fn of(status: Status) -> Answer {
        Answer {
            status,
            message: None,
            length: None,
            displaced: None,
        }
    }

    pub fn with_message(self, message: u32) -> Answer {
        Answer {
            message: Some(message),
            ..self
        }
    }

    pub fn with_length(self, length: usize) -> Answer {
        Answer {
            length: Some(length),
            ..self
        }
    }
}

impl fmt::Display for Answer {
    fn fmt(&self, f: &mut fmt::Formatter) -> fmt::Result {
        write!(f, "{}", self.status)?;
        if let Some(message) = self.message {
            write!(f, " message={message}")?;
        }
        if let Some(length) = self.length {
            write!(f, " length={length}")?;
        }
        if let Some(displaced) = self.displaced {
            write!(f, " displaced={displaced}")?;
        }
        Ok(())
    }
}

/// How many messages were accepted, and what became of them.
#[derive(Clone, Copy, Debug, Default, PartialEq, Eq)]
pub struct Counts {
    pub accepted: u64,
    pub queued: u64,
    pub handed_over: u64,
    pub withdrawn: u64,
    pub displaced: u64,
}

/// What can become of a queued message.
#[derive(Clone, Copy, Debug, PartialEq, Eq)]
pub enum Fate {
    HandedOver,
    Withdrawn,
    Displaced,
}

impl Counts {
    /// A message is accepted; until it has another fate, it counts as queued.
    pub fn accept(&mut self) {
        self.accepted = self.accepted.saturating_add(1);
        self.queued = self.queued.saturating_add(1);
    }

    /// A queued message meets its other fate.
    pub fn settle(&mut self, fate: Fate) {
        let count = match fate {
            Fate::HandedOver => &mut self.handed_over,
            Fate::Withdrawn => &mut self.withdrawn,
            Fate::Displaced => &mut self.displaced,
        };
        *count = count.saturating_add(1);
        self.queued -= 1;
    }
}

impl fmt::Display for Counts {
    fn fmt(&self, f: &mut fmt::Formatter) -> fmt::Result {
        write!(
            f,
            "accepted={} queued={} handed_over={} withdrawn={} displaced={}",
            self.accepted, self.queued, self.handed_over, self.withdrawn, self.displaced
        )
    }
}

/// Why a call is refused. The fields are the places.
#[derive(Clone, Copy, Debug, PartialEq, Eq)]
pub enum Refusal {
    AnswerDue {
        task: u8,
    },
    NothingDue {
        task: u8,
    },
    IdleTask {
        task: u8,
    },
    BadNumber {
        number: u8,
    },
    BadLevel {
        task: u8,
    },
    BadShape {
        mailbox: u8,
    },
    Taken {
        number: u8,
    },
    NoMailbox {
        mailbox: u8,
    },
    NotEmpty {
        mailbox: u8,
    },
    WrongSize {
        mailbox: u8,
    },
    /// A receive into a buffer that is too short.
    ShortBuffer {
        mailbox: u8,
    },
    /// A collect into a buffer that is too short.
    ShortCollect {
        task: u8,
    },
    Mixed {
        mailbox: u8,
    },
    Empty {
        mailbox: u8,
    },
    Full {
        mailbox: u8,
    },
    TooLong {
        task: u8,
    },
    NumbersSpent {
        task: u8,
    },
    Store(StoreFault),
}

/// A row of the table of refusals, with the place filled in.
struct Row {
    number: u8,
    name: &'static str,
    layer: &'static str,
    place: u32,
}

impl Refusal {
    fn row(&self) -> Row {
        use Refusal::*;
        let (number, name, layer, place) = match *self {
            AnswerDue { task } => (1, "ANSWER_DUE", "kernel", task),
            NothingDue { task } => (2, "NOTHING_DUE", "kernel", task),
            IdleTask { task } => (3, "IDLE_TASK", "kernel", task),
            BadNumber { number } => (4, "BAD_NUMBER", "kernel", number),
            BadLevel { task } => (5, "BAD_LEVEL", "kernel", task),
            BadShape { mailbox } => (6, "BAD_SHAPE", "kernel", mailbox),
            Taken { number } => (7, "TAKEN", "kernel", number),
            NoMailbox { mailbox } => (8, "NO_MAILBOX", "mailbox", mailbox),
            NotEmpty { mailbox } => (9, "NOT_EMPTY", "mailbox", mailbox),
            WrongSize { mailbox } => (10, "WRONG_SIZE", "mailbox", mailbox),
            ShortBuffer { mailbox } => (11, "SHORT_BUFFER", "mailbox", mailbox),
            ShortCollect { task } => (11, "SHORT_BUFFER", "kernel", task),
            Mixed { mailbox } => (12, "MIXED", "mailbox", mailbox),
            Empty { mailbox } => (13, "EMPTY", "mailbox", mailbox),
            Full { mailbox } => (14, "FULL", "mailbox", mailbox),
            TooLong { task } => (15, "TOO_LONG", "kernel", task),
            NumbersSpent { task } => (16, "NUMBERS_SPENT", "kernel", task),
            Store(ref fault) => {
                let (number, name, layer) = (fault.number(), fault.name(), fault.layer());
                return Row {
                    number,
                    name,
                    layer,
                    place: fault.place(),
                };
            }
        };
        Row {
            number,
            name,
            layer,
            place: u32::from(place),
        }
    }

    pub fn number(&self) -> u8 {
        self.row().number
    }

    pub fn name(&self) -> &'static str {
        self.row().name
    }

    pub fn layer(&self) -> &'static str {
        self.row().layer
    }

    pub fn place(&self) -> u32 {
        self.row().place
    }

    /// The units wanted and free, for STORE_FULL alone.
    pub fn units(&self) -> Option<(u32, u32)> {
        match self {
            Refusal::Store(fault) => fault.units(),
            _ => None,
        }
    }
}

impl From<StoreFault> for Refusal {
    fn from(fault: StoreFault) -> Refusal {
        Refusal::Store(fault)
    }
}

impl fmt::Display for Refusal {
    fn fmt(&self, f: &mut fmt::Formatter) -> fmt::Result {
        let row = (self.number(), self.name(), self.layer(), self.place());
        print_refusal(f, row, self.units())
    }
}

#[cfg(test)]
mod tests {
    use super::*;

    #[test]
    fn printed_answers() {
        let ok = Answer::of(Status::Ok);
        assert_eq!(ok.to_string(), "OK");
        assert_eq!(
            Answer::of(Status::Blocked).with_message(8).to_string(),
            "BLOCKED message=8"
        );
        let displacing = Answer {
            displaced: Some(7),
            ..ok.with_message(9)
        };
        assert_eq!(displacing.to_string(), "OK message=9 displaced=7");
        assert_eq!(
            ok.with_message(7).with_length(2).to_string(),
            "OK message=7 length=2"
        );
        let late = Answer::of(Status::DeadlineReached);
        assert_eq!(
            late.with_message(8).to_string(),
            "DEADLINE_REACHED message=8"
        );
        assert_eq!(late.to_string(), "DEADLINE_REACHED");
    }

    #[test]
    fn printed_counts() {
        let counts = Counts {
            accepted: 5,
            queued: 1,
            handed_over: 3,
            withdrawn: 1,
            displaced: 0,
        };
        assert_eq!(
            counts.to_string(),
            "accepted=5 queued=1 handed_over=3 withdrawn=1 displaced=0"
        );
    }

    #[test]
    fn printed_refusals() {
        use Refusal::*;
        let full = StoreFault::StoreFull {
            message: 71,
            wanted: 1,
            free: 0,
        };
        for (refusal, text) in [
            (
                AnswerDue { task: 9 },
                "refused 1 ANSWER_DUE layer=kernel place=9",
            ),
            (
                NothingDue { task: 9 },
                "refused 2 NOTHING_DUE layer=kernel place=9",
            ),
            (
                IdleTask { task: 0 },
                "refused 3 IDLE_TASK layer=kernel place=0",
            ),
            (
                BadNumber { number: 255 },
                "refused 4 BAD_NUMBER layer=kernel place=255",
            ),
            (
                BadLevel { task: 9 },
                "refused 5 BAD_LEVEL layer=kernel place=9",
            ),
            (
                BadShape { mailbox: 9 },
                "refused 6 BAD_SHAPE layer=kernel place=9",
            ),
            (Taken { number: 9 }, "refused 7 TAKEN layer=kernel place=9"),
            (
                NoMailbox { mailbox: 9 },
                "refused 8 NO_MAILBOX layer=mailbox place=9",
            ),
            (
                NotEmpty { mailbox: 9 },
                "refused 9 NOT_EMPTY layer=mailbox place=9",
            ),
            (
                WrongSize { mailbox: 9 },
                "refused 10 WRONG_SIZE layer=mailbox place=9",
            ),
            (
                ShortBuffer { mailbox: 9 },
                "refused 11 SHORT_BUFFER layer=mailbox place=9",
            ),
            (
                ShortCollect { task: 63 },
                "refused 11 SHORT_BUFFER layer=kernel place=63",
            ),
            (
                Mixed { mailbox: 9 },
                "refused 12 MIXED layer=mailbox place=9",
            ),
            (
                Empty { mailbox: 9 },
                "refused 13 EMPTY layer=mailbox place=9",
            ),
            (Full { mailbox: 9 }, "refused 14 FULL layer=mailbox place=9"),
            (
                TooLong { task: 9 },
                "refused 15 TOO_LONG layer=kernel place=9",
            ),
            (
                NumbersSpent { task: 9 },
                "refused 16 NUMBERS_SPENT layer=kernel place=9",
            ),
            (
                Store(full),
                "refused 20 STORE_FULL layer=store place=71 wanted=1 free=0",
            ),
        ] {
            assert_eq!(refusal.to_string(), text);
        }
    }
}
