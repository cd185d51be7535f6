//! Encodings with layouts in the program: a constant is such a layout, which is checked when the
//! program runs.

use crate::ffi::{self, Tables};

/// Returns the encoding of the layout.
///
/// # Panics
///
/// Panics if the bytes are not a layout.
#[cold]
pub(crate) fn read(layout: &[u8]) -> Tables {
    ffi::read(layout).expect("the bytes are no layout of an encoding")
}

/// Returns nothing: no memory is there to keep it in.
#[cfg(not(feature = "std"))]
pub(crate) fn kept(_: &'static [u8]) -> Option<&'static Tables> {
    None
}

#[cfg(feature = "std")]
pub(crate) use kept::kept;

/// Each encoding is kept as long as the program runs, and is found by the address of its layout. A
/// constant can't keep it, since each use of a constant is a value of its own.
#[cfg(feature = "std")]
mod kept {
    use std::boxed::Box;
    use std::ptr;
    use std::sync::OnceLock;

    use crate::ffi::Tables;

    const PLACES: usize = 256;

    static KEPT: [OnceLock<Box<Kept>>; PLACES] = [const { OnceLock::new() }; PLACES];

    struct Kept {
        layout: &'static [u8],
        tables: Tables,
    }

    /// Returns the encoding of the layout, which is read at the first call. Returns `None` if other
    /// layouts have all the places.
    ///
    /// # Panics
    ///
    /// Panics if the bytes are not a layout.
    pub(crate) fn kept(layout: &'static [u8]) -> Option<&'static Tables> {
        let first = first_place(layout);
        KEPT[first..]
            .iter()
            .chain(&KEPT[..first])
            .map(|place| place.get_or_init(|| keep(layout)))
            .find(|kept| ptr::eq(kept.layout, layout))
            .map(|kept| &kept.tables)
    }

    #[cold]
    fn keep(layout: &'static [u8]) -> Box<Kept> {
        Box::new(Kept { layout, tables: super::read(layout) })
    }

    /// Where the layout is, unless others were there before. Layouts have 514 bytes or more.
    fn first_place(layout: &[u8]) -> usize {
        layout.as_ptr() as usize / 512 % PLACES
    }
}
