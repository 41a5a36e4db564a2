//! Errors to be planted on purpose in the controller: those that its rules
//! invite. A controller with one of them must be told from a good one. Each is
//! a constant parameter, so the good controller pays nothing.

#[derive(Clone, Copy, Debug, Default, PartialEq, Eq)]
#[repr(u8)]
pub enum Planted {
    #[default]
    None,
    /// A word with even parity is carried out.
    EvenParity,
    /// The call stack holds five.
    DepthFive,
    /// FLG heeds its condition.
    FalseFlagSkipped,
    /// An instruction whose condition is false is no step.
    FalseNotCounted,
    /// The budget is asked after the fetch, so a bad instruction is seen early.
    BudgetAfterFetch,
    /// An execute message whose condition is false uses an outcome up.
    UnexecutedUsesOutcome,
    /// Behind RAM's last word comes its first.
    WrapsAtEnd,
    /// A return without a call halts.
    ReturnBelowHalts,
    /// A record that breaks its layout is passed over.
    DamagedPassedOver,
}

impl Planted {
    pub const ERRORS: [Planted; 9] = [
        Planted::EvenParity,
        Planted::DepthFive,
        Planted::FalseFlagSkipped,
        Planted::FalseNotCounted,
        Planted::BudgetAfterFetch,
        Planted::UnexecutedUsesOutcome,
        Planted::WrapsAtEnd,
        Planted::ReturnBelowHalts,
        Planted::DamagedPassedOver,
    ];
}

// The errors as values of a constant parameter.
pub(super) const NONE: u8 = Planted::None as u8;
pub(super) const EVEN_PARITY: u8 = Planted::EvenParity as u8;
pub(super) const DEPTH_FIVE: u8 = Planted::DepthFive as u8;
pub(super) const FALSE_FLAG_SKIPPED: u8 = Planted::FalseFlagSkipped as u8;
pub(super) const FALSE_NOT_COUNTED: u8 = Planted::FalseNotCounted as u8;
pub(super) const BUDGET_AFTER_FETCH: u8 = Planted::BudgetAfterFetch as u8;
pub(super) const UNEXECUTED_USES_OUTCOME: u8 = Planted::UnexecutedUsesOutcome as u8;
pub(super) const WRAPS_AT_END: u8 = Planted::WrapsAtEnd as u8;
pub(super) const RETURN_BELOW_HALTS: u8 = Planted::ReturnBelowHalts as u8;
pub(super) const DAMAGED_PASSED_OVER: u8 = Planted::DamagedPassedOver as u8;

/// Calls a function that takes the error as a constant parameter.
macro_rules! with_planted {
    ($planted:expr, $function:ident $arguments:tt) => {{
        use $crate::controller::planted::*;
        match $planted {
            Planted::None => $function::<NONE> $arguments,
            Planted::EvenParity => $function::<EVEN_PARITY> $arguments,
            Planted::DepthFive => $function::<DEPTH_FIVE> $arguments,
            Planted::FalseFlagSkipped => $function::<FALSE_FLAG_SKIPPED> $arguments,
            Planted::FalseNotCounted => $function::<FALSE_NOT_COUNTED> $arguments,
            Planted::BudgetAfterFetch => $function::<BUDGET_AFTER_FETCH> $arguments,
            Planted::UnexecutedUsesOutcome => $function::<UNEXECUTED_USES_OUTCOME> $arguments,
            Planted::WrapsAtEnd => $function::<WRAPS_AT_END> $arguments,
            Planted::ReturnBelowHalts => $function::<RETURN_BELOW_HALTS> $arguments,
            Planted::DamagedPassedOver => $function::<DAMAGED_PASSED_OVER> $arguments,
        }
    }};
}
pub(super) use with_planted;
