//! The op code word of an instruction (000, figure 11 and table 102).

/// An instruction that request 14 names, with its op code.
#[derive(Clone, Copy, Debug, PartialEq, Eq)]
#[repr(u16)]
pub enum Operation {
    /// Execute message.
    Xeq = 0x01,
    /// Jump.
    Jmp = 0x02,
    /// Subroutine call.
    Cal = 0x03,
    /// Subroutine return.
    Rtn = 0x04,
    /// Halt.
    Hlt = 0x07,
    /// Set, clear or toggle general-purpose flags.
    Flg = 0x0C,
}

impl Operation {
    pub const ALL: [Operation; 6] = [
        Operation::Xeq,
        Operation::Jmp,
        Operation::Cal,
        Operation::Rtn,
        Operation::Hlt,
        Operation::Flg,
    ];

    /// The guide's mnemonic.
    pub fn mnemonic(self) -> &'static str {
        match self {
            Operation::Xeq => "XEQ",
            Operation::Jmp => "JMP",
            Operation::Cal => "CAL",
            Operation::Rtn => "RTN",
            Operation::Hlt => "HLT",
            Operation::Flg => "FLG",
        }
    }

    fn coded(code: u16) -> Option<Operation> {
        let mut all = Operation::ALL.into_iter();
        all.find(|operation| *operation as u16 == code)
    }
}

/// What bits 9-5 of every op code word are: 01010.
pub const PATTERN: u16 = 0b01010;

/// The condition code ALWAYS.
pub const ALWAYS: u16 = 0x0F;
/// Bit 4 of the condition code field: the inverse.
pub const INVERSE: u16 = 0x10;

/// An op code word taken apart.
#[derive(Clone, Copy, Debug, PartialEq, Eq)]
pub struct OpCode {
    pub operation: Operation,
    /// The five bits of the condition code field.
    pub condition: u16,
}

/// Why a word is no op code word.
#[derive(Clone, Copy, Debug, PartialEq, Eq)]
pub enum Fault {
    /// The sixteen bits have even parity.
    Parity,
    /// Bits 9-5 are not 01010.
    Pattern,
    /// The op code is none of the six.
    Code(u16),
}

impl OpCode {
    #[inline(always)]
    pub fn read(word: u16) -> Result<OpCode, Fault> {
        if word.count_ones() % 2 == 0 {
            return Err(Fault::Parity);
        }
        if word >> 5 & 0x1F != PATTERN {
            return Err(Fault::Pattern);
        }
        let code = word >> 10 & 0x1F;
        let operation = Operation::coded(code).ok_or(Fault::Code(code))?;
        Ok(OpCode {
            operation,
            condition: word & 0x1F,
        })
    }

    /// The word, with the parity bit that it needs.
    pub fn word(self) -> u16 {
        let word = (self.operation as u16) << 10 | PATTERN << 5 | self.condition;
        let parity = (word.count_ones() % 2 == 0) as u16;
        parity << 15 | word
    }

    /// FLG is carried out whatever its condition code field says.
    pub fn is_conditional(self) -> bool {
        self.operation != Operation::Flg
    }
}
