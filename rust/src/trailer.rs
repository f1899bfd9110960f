//! Files that stores are saved to: how they end, and how long they are.

use crate::MAX_CELLS;

/// The edition of the files that are written and read, which is the last word of each.
pub const EDITION: u32 = 1;

/// The four words that a file ends with, as they stand there. Nothing says that they are right:
/// [`Store::load`](crate::Store::load) judges that.
///
/// A file is the heap cells of a collected store, then its sixteen registers, then the trailer, all
/// as words with the lowest byte first. What stands before the first heap cell does not count.
///
/// ```
/// use zelmotar::{Store, Trailer, EDITION};
///
/// # fn main() -> Result<(), zelmotar::Refusal> {
/// let file = Store::new(64)?.to_file()?;
/// let trailer = Trailer { distance: 144, heap_cells: 0, capacity: 64, edition: EDITION };
/// assert_eq!(Trailer::of(&file), Some(trailer));
/// assert_eq!(trailer.words(), 128);
/// assert_eq!(Trailer::of(&file[..15]), None);
/// # Ok(())
/// # }
/// ```
#[derive(Clone, Copy, Debug, PartialEq, Eq, Hash)]
#[must_use]
pub struct Trailer {
    /// The bytes from the end of the file back to the first heap cell: with `n` heap cells they are
    /// 8(`n` + 16) + 16.
    pub distance: u32,
    /// The number of heap cells.
    pub heap_cells: u32,
    /// The number of cells that the store has room for, registers included.
    pub capacity: u32,
    /// The edition, [`EDITION`] in a file that can be read.
    pub edition: u32,
}

impl Trailer {
    /// The bytes of a trailer.
    pub const BYTES: usize = 16;

    /// The last four words of a file, if it has as many.
    pub fn of(file: &[u8]) -> Option<Trailer> {
        let bytes: &[u8; Trailer::BYTES] = file.last_chunk()?;
        let word = |i: usize| u32::from_le_bytes([0, 1, 2, 3].map(|byte| bytes[4 * i + byte]));
        Some(Trailer {
            distance: word(0),
            heap_cells: word(1),
            capacity: word(2),
            edition: word(3),
        })
    }

    /// How many words have to be lent to [`Store::load`](crate::Store::load) for the file: two for
    /// each cell of the capacity. It is 0 where the capacity is over [`MAX_CELLS`], as the file is
    /// refused then, whatever is lent.
    #[must_use]
    pub const fn words(self) -> usize {
        if self.capacity <= MAX_CELLS as u32 {
            2 * self.capacity as usize
        } else {
            0
        }
    }
}

/// The bytes of the file of a collected store with this `top`. The file of any other is no longer,
/// as collecting never raises `top`.
///
/// ```
/// use zelmotar::{file_bytes, Store};
///
/// # fn main() -> Result<(), zelmotar::Refusal> {
/// let mut store = Store::fresh([0; 64])?;
/// let mut file = [0; file_bytes(32)]; // Enough for every store of 32 cells.
/// assert_eq!(store.save(&mut file)?, file_bytes(16));
/// # Ok(())
/// # }
/// ```
#[must_use]
pub const fn file_bytes(top: usize) -> usize {
    top.saturating_mul(8).saturating_add(Trailer::BYTES)
}
