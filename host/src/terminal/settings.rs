//! How the terminal is set up.

use super::refusal;
use super::words::Command;

/// The RT address that speaks to every terminal, where broadcast is on.
pub const BROADCAST_ADDRESS: u16 = 31;

#[derive(Clone, Copy, Debug, PartialEq, Eq)]
pub struct Settings {
    /// RT address, 0 to 30, or 0 to 31 with broadcast off.
    pub address: u16,
    /// Area B is active instead of area A.
    pub area_b: bool,
    /// 256, 512, 1,024 or 2,048 words.
    pub stack_size: u16,
    pub overwrite_invalid: bool,
    pub separate_broadcast: bool,
    pub illegal_receive_disable: bool,
    pub busy_receive_disable: bool,
    pub busy_always: bool,
    pub service_request: bool,
    pub subsystem_flag: bool,
    pub terminal_flag: bool,
    /// 31 is broadcast; else it is an address like the others.
    pub broadcast: bool,
}

/// A yes/no setting by its name.
pub type Switch = (&'static str, fn(&mut Settings) -> &mut bool);

impl Settings {
    /// The yes/no settings that start as no, as the scope document lists them.
    pub const SWITCHES: [Switch; 8] = [
        ("overwrite-invalid", |s| &mut s.overwrite_invalid),
        ("separate-broadcast", |s| &mut s.separate_broadcast),
        ("illegal-receive-disable", |s| {
            &mut s.illegal_receive_disable
        }),
        ("busy-receive-disable", |s| &mut s.busy_receive_disable),
        ("busy-always", |s| &mut s.busy_always),
        ("service-request", |s| &mut s.service_request),
        ("subsystem-flag", |s| &mut s.subsystem_flag),
        ("terminal-flag", |s| &mut s.terminal_flag),
    ];

    /// What the trace program runs with.
    pub const TRACE: Settings = Settings {
        address: 5,
        area_b: false,
        stack_size: 256,
        overwrite_invalid: true,
        separate_broadcast: false,
        illegal_receive_disable: false,
        busy_receive_disable: false,
        busy_always: false,
        service_request: false,
        subsystem_flag: false,
        terminal_flag: false,
        broadcast: true,
    };

    /// Refuses with 3 what no terminal can be set to.
    pub fn check(&self) -> Result<(), u16> {
        let listed_size = matches!(self.stack_size, 256 | 512 | 1024 | 2048);
        let highest = if self.broadcast { 30 } else { 31 };
        if self.address <= highest && listed_size {
            Ok(())
        } else {
            Err(refusal::SETTINGS)
        }
    }

    pub fn is_broadcast(&self, command: Command) -> bool {
        self.broadcast && command.address() == BROADCAST_ADDRESS
    }

    /// Whether a command is for this terminal, alone or with all others.
    pub fn is_ours(&self, command: Command) -> bool {
        command.address() == self.address || self.is_broadcast(command)
    }

    /// Whether broadcasts have cells of their own.
    pub fn has_broadcast_cells(&self) -> bool {
        self.broadcast && self.separate_broadcast
    }
}
