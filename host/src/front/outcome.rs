//! How an accepted message went. Good means that its words arrived as they
//! were meant to.

use super::names::{self, kind_of};
use crate::terminal::cells::Kind;
use crate::terminal::{Answer, Record, Settings};

const FAULT: u16 = 0x1000;
const ILLEGAL: u16 = 0x0040;
const BUSY: u16 = 0x0008;

/// What keeps a message from being good.
#[derive(Clone, Copy, Debug, PartialEq, Eq)]
pub enum Trouble {
    Faulty,
    Illegal,
    Busy,
}

impl Trouble {
    /// In the order in which they are told, and in which they keep a transmit
    /// from sending.
    const ALL: [Trouble; 3] = [Trouble::Faulty, Trouble::Illegal, Trouble::Busy];

    pub fn name(self) -> &'static str {
        match self {
            Trouble::Faulty => "faulty",
            Trouble::Illegal => "illegal",
            Trouble::Busy => "busy",
        }
    }

    /// A word that tells of it, and the bit.
    fn shown(self, outcome: &Outcome) -> bool {
        match self {
            Trouble::Faulty => outcome.block_status & FAULT != 0,
            Trouble::Illegal => outcome.block_status & ILLEGAL != 0,
            Trouble::Busy => outcome.status & BUSY != 0,
        }
    }
}

/// Why a message moved no word.
#[derive(Clone, Copy, Debug, PartialEq, Eq)]
pub enum Still {
    /// A transmit that may not send.
    NotSent(Trouble),
    /// A receive whose words a setting keeps out.
    Withheld { illegal: bool, busy: bool },
    /// A receive of which no good word was heard.
    NoneHeard,
}

/// What is told of how a message went, from the terminal's answer.
#[derive(Clone, Copy, Debug, Default, PartialEq, Eq)]
pub struct Outcome {
    pub block_status: u16,
    /// The status word, sent or not.
    pub status: u16,
    /// Why no word moved, where none did.
    pub still: Option<Still>,
}

impl Outcome {
    /// Of an accepted message that moved so many words.
    pub fn new(answer: &Answer, record: &Record, settings: &Settings, words: usize) -> Outcome {
        let outcome = Outcome {
            block_status: answer.block_status,
            status: answer.status,
            still: None,
        };
        if words > 0 {
            return outcome;
        }
        let still = if kind_of(answer.cell) == Kind::Transmit {
            outcome.troubles().next().map(Still::NotSent)
        } else {
            Some(outcome.why_not_stored(record, settings))
        };
        Outcome { still, ..outcome }
    }

    fn why_not_stored(&self, record: &Record, settings: &Settings) -> Still {
        let illegal = self.has(Trouble::Illegal) && settings.illegal_receive_disable;
        let busy = self.has(Trouble::Busy) && settings.busy_receive_disable;
        if record.count > 0 && (illegal || busy) {
            Still::Withheld { illegal, busy }
        } else {
            Still::NoneHeard
        }
    }

    pub fn has(&self, trouble: Trouble) -> bool {
        trouble.shown(self)
    }

    fn troubles(&self) -> impl Iterator<Item = Trouble> + '_ {
        Trouble::ALL
            .into_iter()
            .filter(move |&trouble| self.has(trouble))
    }

    pub fn is_good(&self) -> bool {
        self.troubles().next().is_none()
    }

    /// `good`, or all that kept it from being so: `faulty and busy`.
    pub fn verdict(&self) -> String {
        let names: Vec<&str> = self.troubles().map(Trouble::name).collect();
        match names[..] {
            [] => "good".to_string(),
            _ => names::listed(&names),
        }
    }

    /// `no word stored: none was heard`; nothing where words moved.
    pub fn no_word(&self) -> Option<String> {
        let still = self.still?;
        let done = match still {
            Still::NotSent(_) => "sent",
            Still::Withheld { .. } | Still::NoneHeard => "stored",
        };
        Some(format!("no word {done}: {}", why(still)))
    }
}

fn why(still: Still) -> String {
    match still {
        Still::NotSent(Trouble::Busy) => "the terminal is busy".to_string(),
        Still::NotSent(trouble) => format!("the message is {}", trouble.name()),
        Still::NoneHeard => "none was heard".to_string(),
        Still::Withheld { illegal, busy } => {
            let settings = [
                (illegal, "illegal-receive-disable"),
                (busy, "busy-receive-disable"),
            ];
            let on = settings.iter().filter(|(on, _)| *on);
            let names: Vec<&str> = on.map(|(_, name)| *name).collect();
            format!("withheld by {}", names::listed(&names))
        }
    }
}
