//! The rows of an image's tables.

use crate::rows::{read_rows, text_of};
use crate::{Fixup, OutOfMemory};
use petool_sys as sys;

/// By what an export is looked up.
#[derive(Clone, Copy, Debug, PartialEq, Eq, Hash)]
pub enum Key<'a> {
    /// By its ordinal.
    Ordinal(u16),
    /// By its name.
    Name(&'a [u8]),
}

/// What an export leads to.
#[derive(Clone, Copy, Debug, PartialEq, Eq, Hash)]
pub enum Target<'a> {
    /// An address of the image.
    Rva(u32),
    /// An export of another module, which is named as in the file: mostly without `.dll`.
    Forward {
        /// The other module.
        module: &'a [u8],
        /// Its export.
        key: Key<'a>,
    },
}

impl<'a> Target<'a> {
    pub(crate) fn of(file: &'a [u8], raw: sys::Target) -> Target<'a> {
        let module = text_of(file, raw.module);
        match raw.kind {
            sys::PETOOL_TARGET_RVA => Target::Rva(raw.rva),
            // an ordinal that a forwarder names fits 16 bits
            sys::PETOOL_TARGET_ORDINAL => Target::Forward {
                module,
                key: Key::Ordinal(raw.ordinal as u16),
            },
            _ => Target::Forward {
                module,
                key: Key::Name(text_of(file, raw.name)),
            },
        }
    }
}

/// An import, and where its slot is.
#[derive(Clone, Copy, Debug, PartialEq, Eq, Hash)]
pub struct Import<'a> {
    /// The module that exports it, as in the file.
    pub module: &'a [u8],
    /// The export, by name or ordinal.
    pub key: Key<'a>,
    /// The RVA of the slot of the import address table.
    pub slot: u32,
}

impl<'a> Import<'a> {
    pub(crate) fn of(file: &'a [u8], raw: &sys::Import) -> Import<'a> {
        // an ordinal by which an import is bound fits 16 bits
        let key = if raw.by_ordinal {
            Key::Ordinal(raw.ordinal as u16)
        } else {
            Key::Name(text_of(file, raw.name))
        };
        Import {
            module: text_of(file, raw.module),
            key,
            slot: raw.slot,
        }
    }
}

/// All rows of the tables of an image, read once.
///
/// ```
/// use petool::{Image, Key};
///
/// let file: &[u8] = include_bytes!("../../../../crates/test_cases/data/vc.dll");
/// let tables = Image::new(file)?.tables()?;
/// let import = tables.imports().next().unwrap();
/// assert_eq!((import.module, import.key, import.slot), (&b"A.DLL"[..], Key::Name(b"f"), 0x1030));
/// # Ok::<(), petool::Error>(())
/// ```
#[derive(Clone, Debug)]
pub struct Tables<'a> {
    file: &'a [u8],
    exports: Vec<sys::Export>,
    names: Vec<sys::Export>,
    imports: Vec<sys::Import>,
    fixups: Vec<Fixup>,
}

// SAFETY: the pointers in the rows point into the file, which is borrowed, and are never followed
unsafe impl Send for Tables<'_> {}
// SAFETY: as above; and nothing is changed through a shared reference
unsafe impl Sync for Tables<'_> {}

impl<'a> Tables<'a> {
    /// The tables of an open image of this file: each is counted, and then copied.
    pub(crate) fn of(file: &'a [u8], image: &mut sys::Image) -> Result<Tables<'a>, OutOfMemory> {
        // SAFETY: the image is open; the rows are initialized, and not shared
        let exports = read_rows(0, sys::Export::NONE, |rows, count| unsafe {
            sys::petool_image_exports(image, rows.as_mut_ptr(), rows.len(), count)
        });
        // SAFETY: as above
        let names = read_rows(0, sys::Export::NONE, |rows, count| unsafe {
            sys::petool_image_export_names(image, rows.as_mut_ptr(), rows.len(), count)
        });
        // SAFETY: as above
        let imports = read_rows(0, sys::Import::NONE, |rows, count| unsafe {
            sys::petool_image_imports(image, rows.as_mut_ptr(), rows.len(), count)
        });
        // SAFETY: as above
        let fixups = read_rows(0, Fixup::default(), |rows, count| unsafe {
            sys::petool_image_fixups(image, rows.as_mut_ptr(), rows.len(), count)
        });
        Ok(Tables {
            file,
            exports: exports.map_err(|_| OutOfMemory)?,
            names: names.map_err(|_| OutOfMemory)?,
            imports: imports.map_err(|_| OutOfMemory)?,
            fixups: fixups.map_err(|_| OutOfMemory)?,
        })
    }

    /// The exports by ordinal, in the order of the export address table. An ordinal may exceed 2^32.
    pub fn exports(&self) -> impl ExactSizeIterator<Item = (u64, Target<'a>)> + '_ {
        let file = self.file;
        self.exports
            .iter()
            .map(move |row| (row.ordinal, Target::of(file, row.target)))
    }

    /// The exports by name, in the order of the name pointer table, each name once.
    pub fn names(&self) -> impl ExactSizeIterator<Item = (&'a [u8], Target<'a>)> + '_ {
        let file = self.file;
        self.names
            .iter()
            .map(move |row| (text_of(file, row.name), Target::of(file, row.target)))
    }

    /// The ordinals of [`Tables::names`], in the same order.
    pub fn name_ordinals(&self) -> impl ExactSizeIterator<Item = u64> + '_ {
        self.names.iter().map(|row| row.ordinal)
    }

    /// The imports, in the order of their tables.
    pub fn imports(&self) -> impl ExactSizeIterator<Item = Import<'a>> + '_ {
        let file = self.file;
        self.imports.iter().map(move |row| Import::of(file, row))
    }

    /// The base relocations, in the order of their table.
    pub fn fixups(&self) -> impl ExactSizeIterator<Item = Fixup> + '_ {
        self.fixups.iter().copied()
    }
}
