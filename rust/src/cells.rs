//! The outcomes of a loader's cells.

use std::fmt;
use std::sync::OnceLock;

/// How many cells are made at once.
const BLOCK: usize = 1_024;

/// What each cell shows, once it shows something. A loader makes room as cells begin, so one with many opens at once.
pub(crate) struct Cells<T>(Box<[OnceLock<Block<T>>]>);

type Block<T> = Box<[OnceLock<T>]>;

impl<T> Cells<T> {
    pub(crate) fn new(count: u32) -> Cells<T> {
        Cells((0..count).step_by(BLOCK).map(|_| OnceLock::new()).collect())
    }

    pub(crate) fn get(&self, cell: u32) -> Option<&T> {
        let (block, place) = place_of(cell);
        self.0.get(block)?.get()?[place].get()
    }

    /// Shows this, or gives it back if the cell shows something.
    pub(crate) fn set(&self, cell: u32, shown: T) -> Result<(), T> {
        let (block, place) = place_of(cell);
        let cells = self.0[block].get_or_init(|| (0..BLOCK).map(|_| OnceLock::new()).collect());
        cells[place].set(shown)
    }
}

/// The cells that show something, by their numbers.
impl<T: fmt::Debug> fmt::Debug for Cells<T> {
    fn fmt(&self, f: &mut fmt::Formatter<'_>) -> fmt::Result {
        let blocks = self.0.iter().map(|block| block.get().map_or(&[][..], |cells| cells));
        let cells = blocks.zip(0..).flat_map(|(cells, block)| cells.iter().zip(block * BLOCK..));
        f.debug_map().entries(cells.filter_map(|(cell, number)| Some((number, cell.get()?)))).finish()
    }
}

/// The block of a cell, and its place there.
fn place_of(cell: u32) -> (usize, usize) {
    (cell as usize / BLOCK, cell as usize % BLOCK)
}
