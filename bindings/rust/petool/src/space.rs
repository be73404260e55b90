//! Images that are kept at their bases, and can be moved.

use crate::rows::read_rows;
use crate::set::raw_entries;
use crate::{Binding, Entry, Fault, MoveError, Moved, OutOfMemory, Policy, SetError};
use petool_sys as sys;
use std::marker::PhantomData;

/// A set of images, mapped or opened: each at its base, with its fields relocated and its imports bound. One that is
/// mapped holds its own bytes, so the files may be dropped; one that is opened borrows its files.
///
/// It may be sent to another thread, but only one call at a time may use it, even to read: it is `Send` and not `Sync`.
/// Another thread gets its own by [`Space::shared`].
///
/// ```compile_fail,E0277
/// fn share<T: Sync>() {}
/// share::<petool::Space>();
/// ```
///
/// ```
/// use petool::{Entry, Policy, Space};
///
/// let file: &[u8] = include_bytes!("../../../../crates/test_cases/data/v2.dll");
/// let mut space = Space::map(&[Entry { name: b"v2.dll", file, base: 0x2000_0000 }], Policy::Strict)?;
/// let mut field = [0; 4];
/// space.read(0x2000_1008, &mut field)?;
/// assert_eq!(u32::from_le_bytes(field), 0x2000_1008);
/// space.move_image(0, 0x5000_0000)?;
/// space.read(0x5000_1008, &mut field)?;
/// assert_eq!(u32::from_le_bytes(field), 0x5000_1008);
/// # Ok::<(), Box<dyn std::error::Error>>(())
/// ```
#[derive(Debug)]
pub struct Space<'a> {
    raw: sys::Space,
    files: PhantomData<&'a [u8]>,
}

// SAFETY: one call at a time of any thread may use an open space, which owning it or `&mut` ensures; what it shares with
// others is only read, and counted by the library
unsafe impl Send for Space<'_> {}

/// Where an image of a space is.
#[derive(Clone, Copy, Debug, PartialEq, Eq, Hash)]
pub struct Placed {
    /// The address of its first byte.
    pub base: u64,
    /// How many bytes it has.
    pub size: u32,
}

/// The faults of a window and of an index; a status that the header does not allow counts as these.
const NO_WINDOW: u16 = 54;
const NO_IMAGE: u16 = 55;

/// A space that is closed, before a call opens it.
fn closed<'a>() -> Space<'a> {
    Space {
        raw: sys::Space::CLOSED,
        files: PhantomData,
    }
}

/// A call that opens a space over a set.
type Opening = unsafe extern "C" fn(*mut sys::Space, *const sys::Entry, usize, bool, *mut u32, *mut sys::Fault) -> u32;

/// The space that a call opens over a set.
///
/// # Safety
/// What the space keeps of the set lives as long as the space is open.
unsafe fn opened<'a>(call: Opening, set: &[Entry<'_>], policy: Policy) -> Result<Space<'a>, SetError> {
    let raw_set = raw_entries(set)?;
    let mut space = closed();
    let (mut cycle, mut fault) = (0, sys::Fault::default());
    // SAFETY: the space is closed; the entries and their texts are complete slices, which nobody writes to
    let status = unsafe {
        call(
            &mut space.raw,
            raw_set.as_ptr(),
            raw_set.len(),
            policy.is_known(),
            &mut cycle,
            &mut fault,
        )
    };
    match status {
        sys::PETOOL_OK => Ok(space),
        _ => Err(SetError::of(status, fault, cycle)),
    }
}

impl<'a> Space<'a> {
    /// Maps a set of at most 256 images.
    pub fn map(set: &[Entry<'_>], policy: Policy) -> Result<Space<'a>, SetError> {
        // SAFETY: `petool_space_map` keeps none of the entries
        unsafe { opened(sys::petool_space_map, set, policy) }
    }

    /// Maps a set as [`Space::map`] does, unless its images have more than `most_bytes` bytes together: then
    /// [`SetError::Large`], whatever faults the set has, and before the library allocates memory.
    ///
    /// ```
    /// use petool::{Entry, Policy, SetError, Space};
    ///
    /// let file: &[u8] = include_bytes!("../../../../crates/test_cases/data/v2.dll");
    /// let set = [Entry { name: b"v2.dll", file, base: 0x2000_0000 }];
    /// assert!(Space::map_within(&set, Policy::Strict, 0x3000).is_ok());
    /// assert_eq!(Space::map_within(&set, Policy::Strict, 0x2fff).err(), Some(SetError::Large));
    /// ```
    pub fn map_within(set: &[Entry<'_>], policy: Policy, most_bytes: u64) -> Result<Space<'a>, SetError> {
        let raw_set = raw_entries(set)?;
        let mut space = closed();
        let (mut cycle, mut fault) = (0, sys::Fault::default());
        // SAFETY: the space is closed; the entries and their texts are complete slices, which nobody writes to
        let status = unsafe {
            sys::petool_space_map_within(
                &mut space.raw,
                raw_set.as_ptr(),
                raw_set.len(),
                policy.is_known(),
                most_bytes,
                &mut cycle,
                &mut fault,
            )
        };
        match status {
            sys::PETOOL_OK => Ok(space),
            _ => Err(SetError::of(status, fault, cycle)),
        }
    }

    /// Opens a set over its files, which are borrowed as long as the space and each that shares it is open: it has the
    /// bytes of [`Space::map`], or the same error, and no copy of the images.
    ///
    /// ```
    /// use petool::{Entry, Policy, Space};
    ///
    /// let file: &[u8] = include_bytes!("../../../../crates/test_cases/data/v2.dll");
    /// let mut space = Space::open(&[Entry { name: b"v2.dll", file, base: 0x2000_0000 }], Policy::Strict)?;
    /// let mut field = [0; 4];
    /// space.move_image(0, 0x5000_0000)?;
    /// space.read(0x5000_1008, &mut field)?;
    /// assert_eq!(u32::from_le_bytes(field), 0x5000_1008);
    /// # Ok::<(), Box<dyn std::error::Error>>(())
    /// ```
    ///
    /// ```compile_fail,E0505
    /// use petool::{Entry, Policy, Space};
    ///
    /// let file = vec![0; 64];
    /// let space = Space::open(&[Entry { name: b"a.dll", file: &file, base: 0 }], Policy::Strict);
    /// drop(file);
    /// drop(space);
    /// ```
    pub fn open(set: &[Entry<'a>], policy: Policy) -> Result<Space<'a>, SetError> {
        // SAFETY: the files are borrowed as long as the space is open
        unsafe { opened(sys::petool_space_open, set, policy) }
    }

    /// The same space for another thread. As long as there are several of them, none is moved; the memory is freed when
    /// the last is dropped.
    ///
    /// ```
    /// use petool::{Entry, MoveError, Policy, Space};
    ///
    /// let file: &[u8] = include_bytes!("../../../../crates/test_cases/data/v2.dll");
    /// let mut space = Space::open(&[Entry { name: b"v2.dll", file, base: 0x2000_0000 }], Policy::Strict)?;
    /// let mut other = space.shared()?;
    /// assert_eq!(space.move_image(0, 0x5000_0000), Err(MoveError::Shared));
    /// let mut field = [0; 4];
    /// std::thread::scope(|scope| scope.spawn(|| other.read(0x2000_1008, &mut field)).join()).unwrap()?;
    /// assert_eq!(u32::from_le_bytes(field), 0x2000_1008);
    /// drop(other);
    /// assert!(space.move_image(0, 0x5000_0000).is_ok());
    /// # Ok::<(), Box<dyn std::error::Error>>(())
    /// ```
    pub fn shared(&mut self) -> Result<Space<'a>, OutOfMemory> {
        let mut other = closed();
        // SAFETY: the space is open and the other one closed
        let status = unsafe { sys::petool_space_share(&mut self.raw, &mut other.raw) };
        match status {
            sys::PETOOL_OK => Ok(other),
            _ => Err(OutOfMemory),
        }
    }

    /// Fills the buffer with the bytes from an address on. If they do not all lie in one image, the error is fault 54,
    /// and the buffer is unchanged.
    pub fn read(&mut self, address: u64, buffer: &mut [u8]) -> Result<(), Fault> {
        let mut fault = sys::Fault {
            number: NO_WINDOW,
            image: u16::MAX.into(),
            place: sys::PETOOL_PLACE_ADDRESS,
            at: address,
        };
        // SAFETY: the space is open; the buffer is a complete slice, and not shared
        let status =
            unsafe { sys::petool_space_read(&mut self.raw, address, buffer.as_mut_ptr(), buffer.len(), &mut fault) };
        match status {
            sys::PETOOL_OK => Ok(()),
            _ => Err(Fault::of(fault)),
        }
    }

    /// Moves an image to another base: relocates its fields, and binds again the slots whose exports are in it. The
    /// error is [`MoveError::Shared`] as long as there is another space that shares this one, and otherwise the first of
    /// faults 55 and 44 to 47; then nothing is changed.
    pub fn move_image(&mut self, image: u32, base: u64) -> Result<Moved, MoveError> {
        let mut moved = Moved::default();
        let mut fault = sys::Fault {
            number: NO_IMAGE,
            image,
            place: sys::PETOOL_PLACE_ITEM,
            at: image.into(),
        };
        // SAFETY: the space is open
        let status = unsafe { sys::petool_space_move(&mut self.raw, image, base, &mut moved, &mut fault) };
        match status {
            sys::PETOOL_OK => Ok(moved),
            sys::PETOOL_SHARED => Err(MoveError::Shared),
            _ => Err(MoveError::Fault(Fault::of(fault))),
        }
    }

    /// Where the image of an entry is; `None` if there is no such image.
    pub fn image(&mut self, image: u32) -> Option<Placed> {
        let mut placed = Placed { base: 0, size: 0 };
        // SAFETY: the space is open
        let status = unsafe { sys::petool_space_image(&mut self.raw, image, &mut placed.base, &mut placed.size) };
        (status == sys::PETOOL_OK).then_some(placed)
    }

    /// What each import is bound to.
    pub fn bindings(&mut self) -> Result<Vec<Binding>, OutOfMemory> {
        let bound = read_rows(0, Binding::default(), |rows, count| {
            // SAFETY: the space is open; the rows are not shared
            unsafe { sys::petool_space_bindings(&mut self.raw, rows.as_mut_ptr(), rows.len(), count) }
        });
        bound.map_err(|_| OutOfMemory)
    }
}

impl Drop for Space<'_> {
    fn drop(&mut self) {
        // SAFETY: the space is closed or open, was never copied, and is not used again; its files are still borrowed
        unsafe { sys::petool_space_close(&mut self.raw) }
    }
}
