//! Sets of images in one address space.

use crate::rows::{read_rows, room_of, text_of};
use crate::{Binding, Key, OutOfMemory, SetError};
use petool_sys as sys;

/// An image of a set.
#[derive(Clone, Copy, Debug)]
pub struct Entry<'a> {
    /// The module's name, such as `kernel32.dll`; the case of ASCII letters is ignored.
    pub name: &'a [u8],
    /// All bytes of its file.
    pub file: &'a [u8],
    /// Its base: a multiple of 65,536.
    pub base: u64,
}

/// What an import means if its module is not in the set.
#[derive(Clone, Copy, Debug, PartialEq, Eq, Hash)]
pub enum Policy {
    /// It is fault 48.
    Strict,
    /// It is not a fault, and its slot keeps its bytes from the file.
    Known,
}

impl Policy {
    pub(crate) fn is_known(self) -> bool {
        self == Policy::Known
    }
}

/// The entries as records of calls. Their texts are borrowed: the list may not outlive the entries.
pub(crate) fn raw_entries(set: &[Entry<'_>]) -> Result<Vec<sys::Entry>, OutOfMemory> {
    let blank = sys::Entry {
        name: sys::Text::NONE,
        file: sys::Text::NONE,
        base: 0,
    };
    let mut raw = room_of(blank, set.len())?;
    for (row, entry) in raw.iter_mut().zip(set) {
        *row = sys::Entry {
            name: sys::Text::of(entry.name),
            file: sys::Text::of(entry.file),
            base: entry.base,
        };
    }
    Ok(raw)
}

/// How many bindings are read without checking the set a second time.
const GUESS: usize = 1024;

/// Checks a set of at most 256 images, and returns what each import is bound to.
///
/// ```
/// use petool::{judge, Entry, Policy};
///
/// let b: &[u8] = include_bytes!("../../../../crates/test_cases/data/vb.dll");
/// let set = [Entry { name: b"b.dll", file: b, base: 0x2000_0000 }];
/// assert_eq!(judge(&set, Policy::Strict)?.len(), 0);
/// # Ok::<(), petool::SetError>(())
/// ```
pub fn judge(set: &[Entry<'_>], policy: Policy) -> Result<Vec<Binding>, SetError> {
    let raw = raw_entries(set)?;
    let (mut cycle, mut fault) = (0, sys::Fault::default());
    let judged = read_rows(GUESS, Binding::default(), |rows, count| {
        // SAFETY: the entries and their texts are complete slices, which nobody writes to; the rows are not shared
        unsafe {
            sys::petool_judge(
                raw.as_ptr(),
                raw.len(),
                policy.is_known(),
                rows.as_mut_ptr(),
                rows.len(),
                count,
                &mut cycle,
                &mut fault,
            )
        }
    });
    judged.map_err(|status| SetError::of(status, fault, cycle))
}

/// An import that is bound to nothing, since its search comes to a module that is not in the set.
#[derive(Clone, Copy, Debug, PartialEq, Eq, Hash)]
pub struct UnboundImport<'a> {
    /// The index of the entry whose image has the slot.
    pub image: u32,
    /// The RVA of the slot, which keeps its bytes from the file.
    pub slot: u32,
    /// The module that exports it, as in the file.
    pub module: &'a [u8],
    /// The export, by name or ordinal.
    pub key: Key<'a>,
}

impl<'a> UnboundImport<'a> {
    fn of(set: &[Entry<'a>], raw: &sys::UnboundImport) -> UnboundImport<'a> {
        let file = set.get(raw.image as usize).map_or(&[][..], |entry| entry.file);
        // an ordinal by which an import is bound fits 16 bits
        let key = if raw.by_ordinal {
            Key::Ordinal(raw.ordinal as u16)
        } else {
            Key::Name(text_of(file, raw.name))
        };
        UnboundImport {
            image: raw.image,
            slot: raw.slot,
            module: text_of(file, raw.module),
            key,
        }
    }
}

/// Checks a set of at most 256 images with [`Policy::Known`], and returns the imports that are bound to nothing, image by
/// image and in the order of each image's imports.
///
/// ```
/// use petool::{unbound, Entry, Key};
///
/// let file: &[u8] = include_bytes!("../../../../crates/test_cases/data/vc.dll");
/// let found = unbound(&[Entry { name: b"c.dll", file, base: 0x3000_0000 }])?;
/// assert_eq!((found[0].image, found[0].slot), (0, 0x1030));
/// assert_eq!((found[0].module, found[0].key), (&b"A.DLL"[..], Key::Name(b"f")));
/// # Ok::<(), petool::SetError>(())
/// ```
pub fn unbound<'a>(set: &[Entry<'a>]) -> Result<Vec<UnboundImport<'a>>, SetError> {
    let raw = raw_entries(set)?;
    let (mut cycle, mut fault) = (0, sys::Fault::default());
    let told = read_rows(GUESS, sys::UnboundImport::NONE, |rows, count| {
        // SAFETY: the entries and their texts are complete slices, which nobody writes to; the rows are not shared, and
        // their texts are initialized
        unsafe {
            sys::petool_unbound(
                raw.as_ptr(),
                raw.len(),
                rows.as_mut_ptr(),
                rows.len(),
                count,
                &mut cycle,
                &mut fault,
            )
        }
    });
    let rows = told.map_err(|status| SetError::of(status, fault, cycle))?;
    let blank = UnboundImport {
        image: 0,
        slot: 0,
        module: &[],
        key: Key::Ordinal(0),
    };
    let mut found = room_of(blank, rows.len())?;
    for (import, row) in found.iter_mut().zip(&rows) {
        *import = UnboundImport::of(set, row);
    }
    Ok(found)
}
