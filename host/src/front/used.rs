//! Which cells are in use: those that had an accepted message.

/// Cells are numbered below this.
pub const CELLS: usize = 96;

#[derive(Clone, Debug, PartialEq, Eq)]
pub struct Used([bool; CELLS]);

impl Default for Used {
    fn default() -> Used {
        Used([false; CELLS])
    }
}

impl Used {
    /// An accepted message was for this cell.
    pub fn by(&mut self, cell: u16) {
        self.0[usize::from(cell)] = true;
    }

    pub fn has(&self, cell: u16) -> bool {
        self.0[usize::from(cell)]
    }
}
