//! The resources of an image: the leaves of its resource tree, its version information and its manifest.

use crate::rows::{rows_of, text_of};
use crate::{Image, OutOfMemory, VersionInfo};
use petool_sys as sys;

/// A text in UTF-16, little endian, as the file has it.
#[derive(Clone, Copy, Debug, PartialEq, Eq, Hash)]
pub struct Utf16<'a>(pub &'a [u8]);

impl<'a> Utf16<'a> {
    /// Its units.
    pub fn units(self) -> impl Iterator<Item = u16> + 'a {
        self.0
            .chunks_exact(2)
            .map(|pair| u16::from_le_bytes([pair[0], pair[1]]))
    }

    /// The same as a string, with U+FFFD for each half of a pair that stands alone.
    pub fn to_string_lossy(self) -> String {
        char::decode_utf16(self.units())
            .map(|it| it.unwrap_or(char::REPLACEMENT_CHARACTER))
            .collect()
    }
}

impl PartialEq<str> for Utf16<'_> {
    fn eq(&self, other: &str) -> bool {
        self.units().eq(other.encode_utf16())
    }
}

impl PartialEq<&str> for Utf16<'_> {
    fn eq(&self, other: &&str) -> bool {
        *self == **other
    }
}

/// What names a resource at a level of the tree.
#[derive(Clone, Copy, Debug, PartialEq, Eq, Hash)]
pub enum ResourceName<'a> {
    /// An id.
    Id(u32),
    /// A text; empty if the file does not hold it in one run.
    Text(Utf16<'a>),
}

/// A resource: a leaf of the resource tree.
#[derive(Clone, Copy, Debug, PartialEq, Eq, Hash)]
pub struct Resource<'a> {
    /// The type: 16 version information, 24 a manifest. `None` if the tree ends before this level, and so for the others.
    pub kind: Option<ResourceName<'a>>,
    /// The name.
    pub name: Option<ResourceName<'a>>,
    /// The language.
    pub language: Option<ResourceName<'a>>,
    /// Its data; empty if the file does not hold all of it in one run.
    pub bytes: &'a [u8],
    /// The RVA of the data.
    pub rva: u32,
    /// The size of the data.
    pub size: u32,
    /// The code page of texts in the data, as written.
    pub code_page: u32,
}

fn name_of(file: &[u8], raw: sys::ResourceName) -> Option<ResourceName<'_>> {
    match raw.kind {
        sys::PETOOL_NAMED_ID => Some(ResourceName::Id(raw.number)),
        sys::PETOOL_NAMED_TEXT => Some(ResourceName::Text(Utf16(text_of(file, raw.text)))),
        _ => None,
    }
}

/// A string of version information.
#[derive(Clone, Copy, Debug, PartialEq, Eq, Hash)]
pub struct VersionString<'a> {
    /// 8 hexadecimal digits: the language and the code page.
    pub table: Utf16<'a>,
    /// What the string is, such as `ProductVersion`.
    pub key: Utf16<'a>,
    /// The string.
    pub value: Utf16<'a>,
}

impl<'a> Image<'a> {
    /// The leaves of its resource tree, in the order of the tree.
    pub fn resources(&self) -> Result<Vec<Resource<'a>>, OutOfMemory> {
        let file = self.file();
        let rows = rows_of(file, sys::Resource::NONE, sys::petool_resources)?;
        let of = |row: sys::Resource| Resource {
            kind: name_of(file, row.kind),
            name: name_of(file, row.name),
            language: name_of(file, row.language),
            bytes: text_of(file, row.bytes),
            rva: row.rva,
            size: row.size,
            code_page: row.code_page,
        };
        Ok(rows.into_iter().map(of).collect())
    }

    /// The fixed part of its version information; `None` if there is none, or it does not begin as it must.
    pub fn version(&self) -> Option<VersionInfo> {
        let (mut version, mut fault) = (VersionInfo::default(), sys::Fault::default());
        // SAFETY: the file is a complete slice, which nobody writes to
        let status = unsafe { sys::petool_version(self.file().as_ptr(), self.file().len(), &mut version, &mut fault) };
        (status == sys::PETOOL_OK).then_some(version)
    }

    /// The strings of its version information, of each table in its order.
    pub fn version_strings(&self) -> Result<Vec<VersionString<'a>>, OutOfMemory> {
        let file = self.file();
        let rows = rows_of(file, sys::VersionText::NONE, sys::petool_version_strings)?;
        let of = |row: sys::VersionText| VersionString {
            table: Utf16(text_of(file, row.table)),
            key: Utf16(text_of(file, row.key)),
            value: Utf16(text_of(file, row.value)),
        };
        Ok(rows.into_iter().map(of).collect())
    }

    /// The first of these strings whose key is this one in ASCII, such as `ProductVersion`.
    pub fn version_string(&self, key: &str) -> Option<Utf16<'a>> {
        let (mut value, mut fault) = (sys::Text::NONE, sys::Fault::default());
        // SAFETY: the file and the key are complete slices, which nobody writes to; the text is initialized
        let status = unsafe {
            sys::petool_version_string(
                self.file().as_ptr(),
                self.file().len(),
                key.as_ptr(),
                key.len(),
                &mut value,
                &mut fault,
            )
        };
        (status == sys::PETOOL_OK).then(|| Utf16(text_of(self.file(), value)))
    }

    /// Its manifest as the file has it, mostly in UTF-8; `None` if there is none, or the file does not hold all of it in one run.
    pub fn manifest(&self) -> Option<&'a [u8]> {
        let (mut text, mut fault) = (sys::Text::NONE, sys::Fault::default());
        // SAFETY: the file is a complete slice, which nobody writes to; the text is initialized
        let status = unsafe { sys::petool_manifest(self.file().as_ptr(), self.file().len(), &mut text, &mut fault) };
        (status == sys::PETOOL_OK).then(|| text_of(self.file(), text))
    }
}
