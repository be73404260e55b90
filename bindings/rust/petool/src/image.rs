//! One image: its bytes, its exports, and its file at another base.

use crate::opened::{open, Asked};
use crate::{Error, Headers, Import, OutOfMemory, Section, Tables, Target};
use petool_sys as sys;
use std::sync::{Mutex, PoisonError};

/// A file with none of the image faults of docs/FAULTS.md.
///
/// It is read and checked once, when it is made, and the contents of its tables are kept. After that only
/// [`Image::rebased`] returns a fault, and only that, [`Image::tables`] and [`Image::shared`] may be out of memory. Any
/// number of threads may use one image: each call takes a lock, which an [`OpenImage`](crate::OpenImage) does without.
#[derive(Debug)]
pub struct Image<'a> {
    file: &'a [u8],
    headers: Headers,
    raw: Mutex<sys::Image>,
}

// SAFETY: an open image may be used by one thread after another
unsafe impl Send for Image<'_> {}
// SAFETY: each call that uses the open image holds its lock
unsafe impl Sync for Image<'_> {}

impl<'a> Image<'a> {
    /// Checks a file: headers, sections, exports, imports and base relocations.
    pub fn new(file: &'a [u8]) -> Result<Image<'a>, Error> {
        let raw = Mutex::new(open(file)?);
        let headers = Headers::default();
        let mut image = Image { file, headers, raw };
        image.headers = Headers::read(file)?;
        Ok(image)
    }

    /// What the call gives that asks the open image. No call leaves it half changed, even if it panics.
    fn ask<T>(&self, call: impl FnOnce(Asked<'_, 'a>) -> T) -> T {
        let mut raw = self.raw.lock().unwrap_or_else(PoisonError::into_inner);
        call(Asked {
            raw: &mut raw,
            file: self.file,
        })
    }

    /// The same image once more, with a lock of its own. The memory is freed when the last of them is dropped.
    pub fn shared(&self) -> Result<Image<'a>, OutOfMemory> {
        Ok(Image {
            raw: Mutex::new(self.ask(|image| image.shared())?),
            file: self.file,
            headers: self.headers.clone(),
        })
    }

    /// All bytes of the file.
    pub fn file(&self) -> &'a [u8] {
        self.file
    }

    /// The fields of its headers.
    pub fn headers(&self) -> &Headers {
        &self.headers
    }

    /// Its sections, in the order of their table.
    pub fn sections(&self) -> &[Section] {
        self.headers.sections()
    }

    /// Fills the buffer with the bytes of the laid-out image from an RVA on: raw data, or 0. It is `None`, and the
    /// buffer is unchanged, if they do not all lie inside the image.
    ///
    /// ```
    /// let file: &[u8] = include_bytes!("../../../../crates/test_cases/data/v1.dll");
    /// let image = petool::Image::new(file)?;
    /// let mut bytes = [0; 4];
    /// assert_eq!(image.read(0x1000, &mut bytes), Some(()));
    /// assert_eq!(bytes, [0, 1, 2, 3]);
    /// assert_eq!(image.read(0x2fff, &mut bytes), None);
    /// # Ok::<(), petool::Error>(())
    /// ```
    pub fn read(&self, rva: u32, buffer: &mut [u8]) -> Option<()> {
        self.ask(|image| image.read(rva, buffer))
    }

    /// The zero-terminated string at an RVA, without its zero byte; `None` if there is none.
    pub fn text(&self, rva: u32) -> Option<&'a [u8]> {
        self.ask(|image| image.text(rva))
    }

    /// The file offset of the byte at an RVA; `None` if the file does not hold it.
    pub fn locate(&self, rva: u32) -> Option<u64> {
        self.ask(|image| image.locate(rva))
    }

    /// All rows of its tables.
    pub fn tables(&self) -> Result<Tables<'a>, OutOfMemory> {
        self.ask(|image| image.tables())
    }

    /// What a name exports.
    pub fn export_by_name(&self, name: &[u8]) -> Option<Target<'a>> {
        self.ask(|image| image.export_by_name(name))
    }

    /// What an ordinal exports.
    pub fn export_by_ordinal(&self, ordinal: u64) -> Option<Target<'a>> {
        self.ask(|image| image.export_by_ordinal(ordinal))
    }

    /// The import whose slot is at an RVA.
    pub fn import_at(&self, slot: u32) -> Option<Import<'a>> {
        self.ask(|image| image.import_at(slot))
    }

    /// The image's file for another base: with its fields relocated, and without a checksum. The error is the first of
    /// faults 44 to 46, 51 and 52.
    ///
    /// ```
    /// let file: &[u8] = include_bytes!("../../../../crates/test_cases/data/v2.dll");
    /// let moved = petool::Image::new(file)?.rebased(0x2000_0000)?;
    /// assert_eq!(petool::Image::new(&moved)?.headers().image_base, 0x2000_0000);
    /// # Ok::<(), petool::Error>(())
    /// ```
    pub fn rebased(&self, base: u64) -> Result<Vec<u8>, Error> {
        self.ask(|image| image.rebased(base))
    }
}

impl Drop for Image<'_> {
    fn drop(&mut self) {
        let raw = self.raw.get_mut().unwrap_or_else(PoisonError::into_inner);
        // SAFETY: the image is open, was never copied, and is not used again; its file is still borrowed
        unsafe { sys::petool_image_close(raw) }
    }
}
