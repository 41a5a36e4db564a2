//! What a comparison of long records has met: how often each class of case
//! occurred.

use super::Told;
use crate::compare::classes;
use crate::terminal::refusal;

classes! {
    Case "records, each damaged in every byte and cut to every length",
    Read "long records read",
    Read4 "refused by the reader with 4, length",
    Read5 "refused by the reader with 5, layout",
    Longer "made longer",
    Longer4 "not made longer: 4, length",
    Longer5 "not made longer: 5, layout",
    Shorter "made shorter",
    Shorter4 "not made shorter: 4, length",
    Shorter5 "not made shorter: 5, layout",
    Loses "not made shorter: 10, an upper half or a member number would be lost",
    Accepted "messages accepted",
    Message1 "messages refused with 1, RAM length",
    Message2 "messages refused with 2, reply buffer",
    Message3 "messages refused with 3, settings",
    Message4 "messages refused with 4, length",
    Message5 "messages refused with 5, layout",
    Message6 "messages refused with 6, address",
    Message7 "messages refused with 7, subaddress 0 or 31",
    NoRoom "no room for what is written",
}

impl Coverage {
    pub fn case(&mut self) {
        self.note(Class::Case, true);
    }

    pub fn cases(&self) -> u64 {
        self.count(Class::Case)
    }

    /// Takes in what was told; both sides told the same.
    pub fn take_in(&mut self, told: &Told) {
        use Class::*;
        self.note(Read, told.read.0 == 0);
        self.note(Read4, told.read.0 == refusal::RECORD_LENGTH);
        self.note(Read5, told.read.0 == refusal::RECORD_LAYOUT);
        self.note(Longer, told.longer.0 == 0);
        self.note(Longer4, told.longer.0 == refusal::RECORD_LENGTH);
        self.note(Longer5, told.longer.0 == refusal::RECORD_LAYOUT);
        self.note(Shorter, told.shorter.0 == 0);
        self.note(Shorter4, told.shorter.0 == refusal::RECORD_LENGTH);
        self.note(Shorter5, told.shorter.0 == refusal::RECORD_LAYOUT);
        self.note(Loses, told.shorter.0 == refusal::LOSES_NUMBER);
        let number = told.message.number;
        self.note(Accepted, number == 0);
        self.note(Message1, number == refusal::RAM_LENGTH);
        self.note(Message2, number == refusal::REPLY_LENGTH);
        self.note(Message3, number == refusal::SETTINGS);
        self.note(Message4, number == refusal::RECORD_LENGTH);
        self.note(Message5, number == refusal::RECORD_LAYOUT);
        self.note(Message6, number == refusal::ADDRESS);
        self.note(Message7, number == refusal::SUBADDRESS);
        self.note(NoRoom, told.longer.1.is_empty());
    }
}
