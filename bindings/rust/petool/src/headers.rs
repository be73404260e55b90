//! Headers and sections, which are read without allocating.

use crate::Error;
use petool_sys as sys;
use std::fmt;
use std::ops::Deref;

/// A section of an image; its fields are those of [`petool_sys::Section`].
#[derive(Clone, Copy, Debug, Default, PartialEq, Eq)]
#[repr(transparent)]
pub struct Section(sys::Section);

impl Section {
    /// Its name, without the zero bytes after it.
    pub fn text(&self) -> &[u8] {
        let filled = self.name.iter().rposition(|byte| *byte != 0).map_or(0, |last| last + 1);
        self.name.get(..filled).unwrap_or(&[])
    }

    /// Whether the byte at this RVA belongs to the section.
    pub fn contains(&self, rva: u32) -> bool {
        rva >= self.rva && rva - self.rva < self.extent
    }
}

impl Deref for Section {
    type Target = sys::Section;

    fn deref(&self) -> &sys::Section {
        &self.0
    }
}

/// The headers of a file, and its sections; its fields are those of [`petool_sys::Headers`].
#[derive(Clone)]
pub struct Headers {
    fields: sys::Headers,
    sections: [Section; sys::PETOOL_SECTIONS],
}

impl Default for Headers {
    /// All fields 0, and no sections.
    fn default() -> Headers {
        Headers {
            fields: sys::Headers::default(),
            sections: [Section::default(); sys::PETOOL_SECTIONS],
        }
    }
}

impl Headers {
    /// Reads headers and sections, and no tables: the error is the first of faults 1 to 15.
    ///
    /// ```
    /// let file: &[u8] = include_bytes!("../../../../crates/test_cases/data/v1.dll");
    /// let headers = petool::Headers::read(file)?;
    /// assert_eq!(headers.image_base, 0x1000_0000);
    /// assert_eq!(headers.sections()[0].rva, 0x1000);
    /// # Ok::<(), petool::Error>(())
    /// ```
    ///
    /// It allocates nothing, so a library that does what its header says never causes [`Error::Memory`].
    pub fn read(file: &[u8]) -> Result<Headers, Error> {
        let mut headers = Headers::default();
        let mut fault = sys::Fault::default();
        // SAFETY: the file is a complete slice, which nobody writes to; Section has the layout of the row in it
        let status = unsafe {
            sys::petool_read_headers(
                file.as_ptr(),
                file.len(),
                &mut headers.fields,
                headers.sections.as_mut_ptr().cast(),
                sys::PETOOL_SECTIONS,
                &mut fault,
            )
        };
        match status {
            sys::PETOOL_OK => Ok(headers),
            _ => Err(Error::of(status, fault)),
        }
    }

    /// The sections, in the order of their table.
    pub fn sections(&self) -> &[Section] {
        self.sections
            .get(..usize::from(self.fields.number_of_sections))
            .unwrap_or(&self.sections)
    }

    /// The section to which the byte at this RVA belongs.
    pub fn section_at(&self, rva: u32) -> Option<&Section> {
        self.sections().iter().find(|section| section.contains(rva))
    }

    /// Whether it is PE32+, and not PE32.
    pub fn is_wide(&self) -> bool {
        self.fields.magic == 0x20b
    }
}

impl Deref for Headers {
    type Target = sys::Headers;

    fn deref(&self) -> &sys::Headers {
        &self.fields
    }
}

impl fmt::Debug for Headers {
    fn fmt(&self, out: &mut fmt::Formatter<'_>) -> fmt::Result {
        out.debug_struct("Headers")
            .field("fields", &self.fields)
            .field("sections", &self.sections())
            .finish()
    }
}
