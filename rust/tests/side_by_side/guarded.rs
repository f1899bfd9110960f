//! A slice that is lent to the library: a page that faults when touched on one side, and a guard on the
//! other.

use std::marker::PhantomData;
use std::ops::Range;

use crate::pages::{next_is_high, Pages};

/// What a slice may be of.
pub trait Lent: Copy + PartialEq + 'static {
    /// What stands beside the slice, and nobody may write.
    const GUARD: [Self; 4];

    /// All of the pages that can be touched.
    fn all(pages: &mut Pages) -> &mut [Self];
}

impl Lent for u32 {
    const GUARD: [u32; 4] = [0x0bad_cafe, 0xffff_ffff, 0, 0x8000_0010];

    fn all(pages: &mut Pages) -> &mut [u32] {
        pages.words()
    }
}

impl Lent for u8 {
    const GUARD: [u8; 4] = [0xca, b'(', 0xff, 0x01];

    fn all(pages: &mut Pages) -> &mut [u8] {
        pages.bytes()
    }
}

/// A slice with a page that faults when touched on one side, and the guard on the other. The two take
/// turns. An empty one leads to such a page too, or to the guard.
pub struct Guarded<T> {
    pages: Pages,
    /// The slice and the guard, as places in the pages.
    lent: Range<usize>,
    guard: Range<usize>,
    of: PhantomData<T>,
}

impl<T: Lent> Guarded<T> {
    pub fn around(list: &[T]) -> Guarded<T> {
        let (mut pages, count, width) = (Pages::take(), list.len(), T::GUARD.len());
        let all = T::all(&mut pages);
        let end = all.len();
        let (lent, guard) = match next_is_high() {
            true => (end - count..end, end - count - width..end - count),
            false => (0..count, count..count + width),
        };
        all[lent.clone()].copy_from_slice(list);
        all[guard.clone()].copy_from_slice(&T::GUARD);
        Guarded { pages, lent, guard, of: PhantomData }
    }

    pub fn lent(&mut self) -> &mut [T] {
        &mut T::all(&mut self.pages)[self.lent.clone()]
    }

    /// What the slice holds, once the guard is seen to be whole.
    pub fn opened(mut self, what: &str) -> Result<Vec<T>, String> {
        let whole = T::all(&mut self.pages)[self.guard.clone()] == T::GUARD;
        let list = self.lent().to_vec();
        self.pages.spare();
        match whole {
            true => Ok(list),
            false => Err(format!("{what}: something outside the lent slice is written")),
        }
    }
}
