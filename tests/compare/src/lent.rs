//! Lent slices with guards around them.

use reference::generate::Cell;

/// Guard cells on each side.
const MARGIN: usize = 4;

/// A slice to lend, in the middle of guard cells.
pub struct Lent<T> {
    cells: Vec<T>,
}

impl<T: Cell> Lent<T> {
    /// Lends a slice that holds `contents` at entry.
    pub fn new(contents: &[T]) -> Lent<T> {
        let mut cells = vec![T::GUARD; MARGIN];
        cells.extend(contents);
        cells.extend([T::GUARD; MARGIN]);
        Lent { cells }
    }

    /// The slice to lend.
    pub fn slice(&mut self) -> &mut [T] {
        let end = self.cells.len() - MARGIN;
        &mut self.cells[MARGIN..end]
    }

    /// What the slice holds now.
    pub fn held(&self) -> &[T] {
        &self.cells[MARGIN..self.cells.len() - MARGIN]
    }

    /// Whether a cell outside the slice was written.
    pub fn overrun(&self) -> bool {
        let after = self.cells.len() - MARGIN;
        self.cells[..MARGIN].iter().chain(&self.cells[after..]).any(|&cell| cell != T::GUARD)
    }
}
