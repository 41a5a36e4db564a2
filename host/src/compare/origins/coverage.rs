//! What a comparison of who wrote a word has met: how often each class of case
//! occurred.

use super::{Asked, Said, Told};
use crate::compare::classes;
use crate::terminal::boundary::{origin_of, PART_WORDS};
use crate::terminal::cells::{LARGE_RAM_WORDS, RAM_WORDS};
use crate::terminal::read_record;
use crate::terminal::records::{RECORD_BYTES, TRANSFER_FAULTS};
use crate::terminal::refusal;
use crate::terminal::writes::Part;

classes! {
    Answered "traces answered",
    LargeCard "traces answered on the 64K card",
    BeyondSmallEnd "words written beyond 0FFF",
    Refused1 "traces refused with 1, RAM length",
    Refused3 "traces refused with 3, settings",
    NoRecord "traces without a record",
    Tail "traces with a tail",
    Parts "traces in more than one part",
    Damaged "records that break the layout",
    Good "records that keep it",
    Transfer "transfers",
    TransferFault "transfers without status, with a wrong gap or a bad second command",
    AsInImage "words as in the image",
    Data "words of data",
    Pointer "lookup pointers",
    Stack "words of the stack",
    StackPointer "stack pointers",
    Receive "words of receive cells",
    Transmit "words of transmit cells",
    Broadcast "words of broadcast cells",
    Beyond "addresses refused with 12",
    Single "addresses asked one by one and written",
    SingleImage "addresses asked one by one and as in the image",
    Single12 "addresses asked one by one and refused with 12",
    Later "traces whose records are counted from a later one on",
    ShortRoom "traces with too little room for a record or its part",
    LongRoom "traces with more room than both need",
}

impl Coverage {
    pub fn traces(&self) -> u64 {
        use Class::*;
        let traces = [Answered, Refused1, Refused3];
        traces.into_iter().map(|class| self.count(class)).sum()
    }

    /// Takes in what was asked and told; both sides told the same.
    pub fn take_in(&mut self, asked: &Asked, told: &Told) {
        use Class::*;
        let number = told.parts[0];
        self.note(Answered, number == 0);
        let is_large = asked.card_words == LARGE_RAM_WORDS;
        self.note(LargeCard, number == 0 && is_large);
        self.note(Refused1, number == refusal::RAM_LENGTH);
        self.note(Refused3, number == refusal::SETTINGS);
        let short = asked.last_lent < 1 || asked.part_lent < PART_WORDS;
        self.note(Later, asked.before > 0);
        self.note(ShortRoom, short);
        self.note(
            LongRoom,
            asked.last_lent > 1 && asked.part_lent > PART_WORDS,
        );
        let records = asked.records.chunks_exact(RECORD_BYTES);
        self.note(NoRecord, records.len() == 0);
        self.note(Tail, !records.remainder().is_empty());
        self.note(Parts, records.len() > asked.part_records);
        for record in records {
            let read = read_record(record);
            self.note(Damaged, read.is_err());
            self.note(Good, read.is_ok());
            if let Ok(record) = read {
                self.note(Transfer, record.is_transfer());
                self.note(TransferFault, record.has_flag(TRANSFER_FAULTS));
            }
        }
        // Where there is no room for it, the answer cannot be read.
        if !short {
            told.every.iter().for_each(|said| self.take_in_said(said));
            let beyond = told.every.iter().skip(RAM_WORDS);
            let is_written = |said: &&Said| said.number == 0 && said.last[0] > 0;
            self.note(BeyondSmallEnd, beyond.filter(is_written).count() > 0);
            for (said, _) in &told.singles {
                let answer = origin_of(said.number, &said.last, &said.part);
                self.note(Single, matches!(answer, Ok(Some(_))));
                self.note(SingleImage, answer == Ok(None));
                self.note(Single12, answer == Err(refusal::BEYOND_RAM));
            }
        }
    }

    fn take_in_said(&mut self, said: &Said) {
        use Class::*;
        let answer = origin_of(said.number, &said.last, &said.part);
        self.note(Beyond, answer == Err(refusal::BEYOND_RAM));
        self.note(AsInImage, answer == Ok(None));
        if let Ok(Some(origin)) = answer {
            self.note(Data, matches!(origin.part, Part::Data(_)));
            self.note(Pointer, origin.part == Part::Pointer);
            self.note(Stack, matches!(origin.part, Part::Stack(_)));
            self.note(StackPointer, origin.part == Part::StackPointer);
            self.note(Receive, origin.cell < 32);
            self.note(Transmit, (32..64).contains(&origin.cell));
            self.note(Broadcast, origin.cell >= 64);
        }
    }
}
