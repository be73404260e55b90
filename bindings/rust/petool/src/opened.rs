//! Images that are kept open for many look-ups.

use crate::rows::{room_of, text_of};
use crate::{Error, Import, OutOfMemory, Tables, Target};
use petool_sys as sys;

/// An image that is kept open, with the contents of its tables, so that no look-up reads them again.
///
/// One call at a time may use it: it is `Send` and not `Sync`. Another thread gets its own by [`OpenImage::shared`].
///
/// ```compile_fail,E0277
/// fn share<T: Sync>() {}
/// share::<petool::OpenImage>();
/// ```
///
/// ```
/// use petool::{OpenImage, Target};
///
/// let file: &[u8] = include_bytes!("../../../../crates/test_cases/data/vb.dll");
/// let mut image = OpenImage::new(file)?;
/// assert_eq!(image.export_by_name(b"g"), Some(Target::Rva(0x1010)));
/// let mut other = image.shared()?;
/// let found = std::thread::scope(|scope| scope.spawn(move || other.export_by_ordinal(7)).join());
/// assert_eq!(found.unwrap(), Some(Target::Rva(0x1010)));
/// # Ok::<(), petool::Error>(())
/// ```
///
/// The file is borrowed as long as the image is open:
///
/// ```compile_fail,E0505
/// let file = vec![0; 64];
/// let image = petool::OpenImage::new(&file);
/// drop(file);
/// drop(image);
/// ```
#[derive(Debug)]
pub struct OpenImage<'a> {
    raw: sys::Image,
    file: &'a [u8],
}

// SAFETY: one call at a time of any thread may use an open image, which owning it or `&mut` ensures; what it shares
// with others is only read, and counted by the library
unsafe impl Send for OpenImage<'_> {}

/// Opens the image of a file, which nobody may write to while the record is open.
pub(crate) fn open(file: &[u8]) -> Result<sys::Image, Error> {
    let (mut image, mut fault) = (sys::Image::CLOSED, sys::Fault::default());
    // SAFETY: the image is closed; the file is a complete slice
    let status = unsafe { sys::petool_image_open(&mut image, file.as_ptr(), file.len(), &mut fault) };
    match status {
        sys::PETOOL_OK => Ok(image),
        _ => Err(Error::of(status, fault)),
    }
}

/// An open image of this file, which one call at a time uses.
pub(crate) struct Asked<'r, 'a> {
    pub(crate) raw: &'r mut sys::Image,
    pub(crate) file: &'a [u8],
}

impl<'a> Asked<'_, 'a> {
    pub(crate) fn shared(self) -> Result<sys::Image, OutOfMemory> {
        let mut other = sys::Image::CLOSED;
        // SAFETY: the image is open and the other one closed
        let status = unsafe { sys::petool_image_share(self.raw, &mut other) };
        match status {
            sys::PETOOL_OK => Ok(other),
            _ => Err(OutOfMemory),
        }
    }

    pub(crate) fn tables(self) -> Result<Tables<'a>, OutOfMemory> {
        Tables::of(self.file, self.raw)
    }

    pub(crate) fn export_by_name(self, name: &[u8]) -> Option<Target<'a>> {
        let mut target = sys::Target::NONE;
        // SAFETY: the image is open; the name is a complete slice; the target's texts are initialized
        let status = unsafe { sys::petool_image_export_by_name(self.raw, name.as_ptr(), name.len(), &mut target) };
        (status == sys::PETOOL_OK).then(|| Target::of(self.file, target))
    }

    pub(crate) fn export_by_ordinal(self, ordinal: u64) -> Option<Target<'a>> {
        let mut target = sys::Target::NONE;
        // SAFETY: the image is open; the target's texts are initialized
        let status = unsafe { sys::petool_image_export_by_ordinal(self.raw, ordinal, &mut target) };
        (status == sys::PETOOL_OK).then(|| Target::of(self.file, target))
    }

    pub(crate) fn import_at(self, slot: u32) -> Option<Import<'a>> {
        let mut import = sys::Import::NONE;
        // SAFETY: the image is open; the import's texts are initialized
        let status = unsafe { sys::petool_image_import_at(self.raw, slot, &mut import) };
        (status == sys::PETOOL_OK).then(|| Import::of(self.file, &import))
    }

    pub(crate) fn read(self, rva: u32, buffer: &mut [u8]) -> Option<()> {
        // SAFETY: the image is open; the buffer is a complete slice, and not shared
        let status = unsafe { sys::petool_image_read(self.raw, rva, buffer.as_mut_ptr(), buffer.len()) };
        (status == sys::PETOOL_OK).then_some(())
    }

    pub(crate) fn text(self, rva: u32) -> Option<&'a [u8]> {
        let mut text = sys::Text::NONE;
        // SAFETY: the image is open; the text is initialized
        let status = unsafe { sys::petool_image_read_text(self.raw, rva, &mut text) };
        (status == sys::PETOOL_OK).then(|| text_of(self.file, text))
    }

    pub(crate) fn locate(self, rva: u32) -> Option<u64> {
        let mut offset = 0;
        // SAFETY: the image is open
        let status = unsafe { sys::petool_image_locate(self.raw, rva, &mut offset) };
        (status == sys::PETOOL_OK).then_some(offset)
    }

    pub(crate) fn rebased(self, base: u64) -> Result<Vec<u8>, Error> {
        let mut out = room_of(0, self.file.len())?;
        let mut fault = sys::Fault::default();
        // SAFETY: the image is open; the new file is a complete slice, and not shared
        let status = unsafe { sys::petool_image_rebase(self.raw, base, out.as_mut_ptr(), out.len(), &mut fault) };
        match status {
            sys::PETOOL_OK => Ok(out),
            _ => Err(Error::of(status, fault)),
        }
    }
}

impl<'a> OpenImage<'a> {
    /// Checks a file as [`Image::new`](crate::Image::new) does, and keeps the contents of its tables.
    pub fn new(file: &'a [u8]) -> Result<OpenImage<'a>, Error> {
        Ok(OpenImage { raw: open(file)?, file })
    }

    fn asked(&mut self) -> Asked<'_, 'a> {
        Asked {
            raw: &mut self.raw,
            file: self.file,
        }
    }

    /// All bytes of the file.
    pub fn file(&self) -> &'a [u8] {
        self.file
    }

    /// The same image for another thread. The memory is freed when the last of them is dropped.
    pub fn shared(&mut self) -> Result<OpenImage<'a>, OutOfMemory> {
        let raw = self.asked().shared()?;
        Ok(OpenImage { raw, file: self.file })
    }

    /// All rows of its tables.
    pub fn tables(&mut self) -> Result<Tables<'a>, OutOfMemory> {
        self.asked().tables()
    }

    /// What a name exports.
    pub fn export_by_name(&mut self, name: &[u8]) -> Option<Target<'a>> {
        self.asked().export_by_name(name)
    }

    /// What an ordinal exports.
    pub fn export_by_ordinal(&mut self, ordinal: u64) -> Option<Target<'a>> {
        self.asked().export_by_ordinal(ordinal)
    }

    /// The import whose slot is at an RVA.
    pub fn import_at(&mut self, slot: u32) -> Option<Import<'a>> {
        self.asked().import_at(slot)
    }

    /// Fills the buffer with the bytes from an RVA on, as [`Image::read`](crate::Image::read) does.
    pub fn read(&mut self, rva: u32, buffer: &mut [u8]) -> Option<()> {
        self.asked().read(rva, buffer)
    }

    /// The zero-terminated string at an RVA, without its zero byte; `None` if there is none.
    pub fn text(&mut self, rva: u32) -> Option<&'a [u8]> {
        self.asked().text(rva)
    }

    /// The file offset of the byte at an RVA; `None` if the file does not hold it.
    pub fn locate(&mut self, rva: u32) -> Option<u64> {
        self.asked().locate(rva)
    }

    /// The image's file for another base, as [`Image::rebased`](crate::Image::rebased) makes it.
    pub fn rebased(&mut self, base: u64) -> Result<Vec<u8>, Error> {
        self.asked().rebased(base)
    }
}

impl Drop for OpenImage<'_> {
    fn drop(&mut self) {
        // SAFETY: the image is closed or open, was never copied, and is not used again; its file is still borrowed
        unsafe { sys::petool_image_close(&mut self.raw) }
    }
}
