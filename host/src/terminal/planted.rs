//! Errors to be planted on purpose: those often seen in student builds, and
//! those that transfers and the 64K card invite.
//!
//! A comparison of two terminals is worth something only if it can fail; a
//! terminal with one of these errors must be told from a good one. The message
//! code takes the error as a constant, so the good terminal pays nothing.

#[derive(Clone, Copy, Debug, Default, PartialEq, Eq)]
#[repr(u8)]
pub enum Planted {
    #[default]
    None,
    /// The descriptor holds the pointer after the message, not before.
    PointerAfterInDescriptor,
    /// Rollover is set even where a fault kept the pointer back.
    RolloverWhenKeptBack,
    /// The place in the message is wrapped by the word count, and the place in
    /// the buffer not at all, so words run on into the next window.
    WrapByWordCount,
    /// The two receive-disable settings are heeded for valid messages only.
    FaultyStoresWhenDisabled,
    /// Count field 0 asks for no words.
    ZeroCountIsNone,
    /// A transfer fault hides no count fault.
    CountBesideTransferFault,
    /// Block status has "no status" at bit 2, and the wrong gap at bit 9.
    TransferBitsExchanged,
    /// The descriptor of a transfer holds the other terminal's command.
    TransmitCommandInDescriptor,
    /// Bytes 2-3 are let through without flag 8.
    UnmarkedTransmitCommand,
    /// Flag 8 is let through on a transmit command.
    TransferOnTransmit,
    /// A count is let through with flags 16 to 64.
    CountWithTransferFault,
    /// Any RAM of more than 4,096 words is taken, and its front used.
    LongerRamTaken,
    /// A cell's window must end by 4,096 words on either card.
    SmallEndAlways,
    /// A circle of 4,096 or 8,192 words is unsound on either card.
    LargeCircleRefused,
    /// The stack must end by 4,096 words on either card.
    StackBelowSmallEnd,
}

impl Planted {
    pub const ERRORS: [Planted; 15] = [
        Planted::PointerAfterInDescriptor,
        Planted::RolloverWhenKeptBack,
        Planted::WrapByWordCount,
        Planted::FaultyStoresWhenDisabled,
        Planted::ZeroCountIsNone,
        Planted::CountBesideTransferFault,
        Planted::TransferBitsExchanged,
        Planted::TransmitCommandInDescriptor,
        Planted::UnmarkedTransmitCommand,
        Planted::TransferOnTransmit,
        Planted::CountWithTransferFault,
        Planted::LongerRamTaken,
        Planted::SmallEndAlways,
        Planted::LargeCircleRefused,
        Planted::StackBelowSmallEnd,
    ];

    /// The name that a person types.
    pub fn name(self) -> &'static str {
        match self {
            Planted::None => "none",
            Planted::PointerAfterInDescriptor => "pointer-after-in-descriptor",
            Planted::RolloverWhenKeptBack => "rollover-when-kept-back",
            Planted::WrapByWordCount => "wrap-by-word-count",
            Planted::FaultyStoresWhenDisabled => "faulty-stores-when-disabled",
            Planted::ZeroCountIsNone => "zero-count-is-none",
            Planted::CountBesideTransferFault => "count-beside-transfer-fault",
            Planted::TransferBitsExchanged => "transfer-bits-exchanged",
            Planted::TransmitCommandInDescriptor => "transmit-command-in-descriptor",
            Planted::UnmarkedTransmitCommand => "unmarked-transmit-command",
            Planted::TransferOnTransmit => "transfer-on-transmit",
            Planted::CountWithTransferFault => "count-with-transfer-fault",
            Planted::LongerRamTaken => "longer-ram-taken",
            Planted::SmallEndAlways => "small-end-always",
            Planted::LargeCircleRefused => "large-circle-refused",
            Planted::StackBelowSmallEnd => "stack-below-small-end",
        }
    }

    /// The error with this name, or what the names are.
    pub fn named(name: &str) -> Result<Planted, String> {
        let mut errors = Planted::ERRORS.iter().copied();
        errors.find(|error| error.name() == name).ok_or_else(|| {
            let names = Planted::ERRORS.map(Planted::name);
            format!("the errors are {}", names.join(", "))
        })
    }
}

// The errors as values of a constant parameter.
pub(super) const NONE: u8 = Planted::None as u8;
pub(super) const POINTER_AFTER_IN_DESCRIPTOR: u8 = Planted::PointerAfterInDescriptor as u8;
pub(super) const ROLLOVER_WHEN_KEPT_BACK: u8 = Planted::RolloverWhenKeptBack as u8;
pub(super) const WRAP_BY_WORD_COUNT: u8 = Planted::WrapByWordCount as u8;
pub(super) const FAULTY_STORES_WHEN_DISABLED: u8 = Planted::FaultyStoresWhenDisabled as u8;
pub(super) const ZERO_COUNT_IS_NONE: u8 = Planted::ZeroCountIsNone as u8;
pub(super) const COUNT_BESIDE_TRANSFER_FAULT: u8 = Planted::CountBesideTransferFault as u8;
pub(super) const TRANSFER_BITS_EXCHANGED: u8 = Planted::TransferBitsExchanged as u8;
pub(super) const TRANSMIT_COMMAND_IN_DESCRIPTOR: u8 = Planted::TransmitCommandInDescriptor as u8;
pub(super) const UNMARKED_TRANSMIT_COMMAND: u8 = Planted::UnmarkedTransmitCommand as u8;
pub(super) const TRANSFER_ON_TRANSMIT: u8 = Planted::TransferOnTransmit as u8;
pub(super) const COUNT_WITH_TRANSFER_FAULT: u8 = Planted::CountWithTransferFault as u8;
pub(super) const LONGER_RAM_TAKEN: u8 = Planted::LongerRamTaken as u8;
pub(super) const SMALL_END_ALWAYS: u8 = Planted::SmallEndAlways as u8;
pub(super) const LARGE_CIRCLE_REFUSED: u8 = Planted::LargeCircleRefused as u8;
pub(super) const STACK_BELOW_SMALL_END: u8 = Planted::StackBelowSmallEnd as u8;

/// Calls a function that takes the error as a constant parameter.
macro_rules! with_planted {
    ($planted:expr, $function:ident $arguments:tt) => {{
        use $crate::terminal::planted::*;
        match $planted {
            Planted::None => $function::<NONE> $arguments,
            Planted::PointerAfterInDescriptor => $function::<POINTER_AFTER_IN_DESCRIPTOR> $arguments,
            Planted::RolloverWhenKeptBack => $function::<ROLLOVER_WHEN_KEPT_BACK> $arguments,
            Planted::WrapByWordCount => $function::<WRAP_BY_WORD_COUNT> $arguments,
            Planted::FaultyStoresWhenDisabled => $function::<FAULTY_STORES_WHEN_DISABLED> $arguments,
            Planted::ZeroCountIsNone => $function::<ZERO_COUNT_IS_NONE> $arguments,
            Planted::CountBesideTransferFault => $function::<COUNT_BESIDE_TRANSFER_FAULT> $arguments,
            Planted::TransferBitsExchanged => $function::<TRANSFER_BITS_EXCHANGED> $arguments,
            Planted::TransmitCommandInDescriptor => $function::<TRANSMIT_COMMAND_IN_DESCRIPTOR> $arguments,
            Planted::UnmarkedTransmitCommand => $function::<UNMARKED_TRANSMIT_COMMAND> $arguments,
            Planted::TransferOnTransmit => $function::<TRANSFER_ON_TRANSMIT> $arguments,
            Planted::CountWithTransferFault => $function::<COUNT_WITH_TRANSFER_FAULT> $arguments,
            Planted::LongerRamTaken => $function::<LONGER_RAM_TAKEN> $arguments,
            Planted::SmallEndAlways => $function::<SMALL_END_ALWAYS> $arguments,
            Planted::LargeCircleRefused => $function::<LARGE_CIRCLE_REFUSED> $arguments,
            Planted::StackBelowSmallEnd => $function::<STACK_BELOW_SMALL_END> $arguments,
        }
    }};
}
pub(super) use with_planted;
