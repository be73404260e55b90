//! What a call returns in place of a result.

use petool_sys as sys;
use std::{fmt, slice};

/// Where a rule is broken. It is shown as `petool check` prints it: `file 0x00000138`.
#[derive(Clone, Copy, Debug, PartialEq, Eq, Hash)]
pub enum Place {
    /// Bytes from the beginning of the file.
    File(u64),
    /// Bytes from the beginning of the laid-out image.
    Rva(u32),
    /// Bytes of the address space.
    Address(u64),
    /// Items of a list, from 0.
    Item(u32),
}

impl fmt::Display for Place {
    fn fmt(&self, out: &mut fmt::Formatter<'_>) -> fmt::Result {
        match self {
            Place::File(at) => write!(out, "file 0x{at:08x}"),
            Place::Rva(at) => write!(out, "rva 0x{at:08x}"),
            Place::Address(at) => write!(out, "address 0x{at:016x}"),
            Place::Item(at) => write!(out, "item {at}"),
        }
    }
}

/// A broken rule of the format: the first one, in the order of docs/FAULTS.md.
///
/// It is shown in words: `section header at 0x138: the section's raw data extends past the end of the file`.
#[derive(Clone, Copy, Debug, PartialEq, Eq, Hash)]
pub struct Fault {
    /// Which rule: of a fault from 1 to 93, of a finding from 101 on.
    pub number: u16,
    /// The index of the entry in a set; otherwise 0.
    pub image: u32,
    /// Where it is broken.
    pub place: Place,
}

impl Fault {
    /// What is at the place.
    pub fn subject(&self) -> &'static str {
        self.words().0
    }

    /// Which rule it breaks.
    pub fn rule(&self) -> &'static str {
        self.words().1
    }

    fn words(&self) -> (&'static str, &'static str) {
        let (mut subject, mut rule) = (sys::Text::NONE, sys::Text::NONE);
        // SAFETY: both texts are initialized, and do not overlap
        let status = unsafe { sys::petool_fault_words(self.number, &mut subject, &mut rule) };
        if status != sys::PETOOL_OK {
            return ("place", "no fault has this number");
        }
        // SAFETY: with this status both are strings of the library, which live for ever
        unsafe { (library_text(subject), library_text(rule)) }
    }

    /// The numbers of the file that the rule compares, by the names of docs/FAULTS.md: none for most rules. The file is
    /// that of the image with the fault.
    ///
    /// ```
    /// let file: &[u8] = include_bytes!("../../../../crates/test_cases/data/v1.dll");
    /// let fault = match petool::Image::new(&file[..9]) {
    ///     Err(petool::Error::Fault(fault)) => fault,
    ///     _ => unreachable!(),
    /// };
    /// assert_eq!(fault.values(&file[..9]).collect::<Vec<_>>(), [("file_size", 9)]);
    /// ```
    pub fn values(&self, file: &[u8]) -> impl Iterator<Item = (&'static str, u64)> {
        let (mut rows, mut count) = ([sys::Value::NONE; sys::PETOOL_VALUES], 0);
        // SAFETY: the file is a complete slice, which nobody writes to; the rows are initialized, and not shared
        let status = unsafe {
            sys::petool_fault_detail(
                file.as_ptr(),
                file.len(),
                &self.raw(),
                rows.as_mut_ptr(),
                rows.len(),
                &mut count,
            )
        };
        let found = if status == sys::PETOOL_OK { count } else { 0 };
        let numbers = rows
            .into_iter()
            .take(found)
            .filter(|row| row.kind != sys::PETOOL_VALUE_NOTHING);
        // SAFETY: with this status each name is a string of the library, which lives for ever
        numbers.map(|row| (unsafe { library_text(row.name) }, row.number))
    }

    /// The fault as the record that calls take.
    fn raw(&self) -> sys::Fault {
        let (place, at) = match self.place {
            Place::File(at) => (sys::PETOOL_PLACE_FILE, at),
            Place::Rva(at) => (sys::PETOOL_PLACE_RVA, at.into()),
            Place::Address(at) => (sys::PETOOL_PLACE_ADDRESS, at),
            Place::Item(at) => (sys::PETOOL_PLACE_ITEM, at.into()),
        };
        sys::Fault {
            number: self.number,
            image: self.image,
            place,
            at,
        }
    }

    /// The fault that a call filled in.
    pub(crate) fn of(raw: sys::Fault) -> Fault {
        // a place of the image or a list fits 32 bits
        let narrow = u32::try_from(raw.at).unwrap_or(u32::MAX);
        let place = match raw.place {
            sys::PETOOL_PLACE_RVA => Place::Rva(narrow),
            sys::PETOOL_PLACE_ADDRESS => Place::Address(raw.at),
            sys::PETOOL_PLACE_ITEM => Place::Item(narrow),
            _ => Place::File(raw.at),
        };
        Fault {
            number: raw.number,
            image: raw.image,
            place,
        }
    }
}

/// What [`name_of`] has names of.
#[derive(Clone, Copy, Debug, PartialEq, Eq, Hash)]
pub enum Named {
    /// The machine of a COFF file header, such as `AMD64`.
    Machine,
    /// The subsystem of an image, such as `WINDOWS_GUI`.
    Subsystem,
    /// A flag of Characteristics in a COFF file header, such as `DLL`.
    Flag,
    /// A flag of DllCharacteristics, such as `NX_COMPAT`.
    DllFlag,
    /// A flag of a section, such as `MEM_READ`.
    SectionFlag,
    /// The table of a data directory, by its index, such as `export`.
    Directory,
    /// A type of debug data, such as `CODEVIEW`.
    DebugType,
    /// A field of the load configuration, by its index, such as `SecurityCookie`.
    LoadField,
}

/// The name that "PE Format" has for a value; a flag is one bit.
///
/// ```
/// use petool::{name_of, Named};
///
/// assert_eq!(name_of(Named::Machine, 0x8664), Some("AMD64"));
/// assert_eq!(name_of(Named::SectionFlag, 0x4000_0000), Some("MEM_READ"));
/// assert_eq!(name_of(Named::Directory, 16), None);
/// ```
pub fn name_of(kind: Named, value: u32) -> Option<&'static str> {
    let kind = match kind {
        Named::Machine => sys::PETOOL_NAME_MACHINE,
        Named::Subsystem => sys::PETOOL_NAME_SUBSYSTEM,
        Named::Flag => sys::PETOOL_NAME_FLAG,
        Named::DllFlag => sys::PETOOL_NAME_DLL_FLAG,
        Named::SectionFlag => sys::PETOOL_NAME_SECTION_FLAG,
        Named::Directory => sys::PETOOL_NAME_DIRECTORY,
        Named::DebugType => sys::PETOOL_NAME_DEBUG_TYPE,
        Named::LoadField => sys::PETOOL_NAME_LOAD_FIELD,
    };
    let mut name = sys::Text::NONE;
    // SAFETY: the text is initialized
    let status = unsafe { sys::petool_name(kind, value, &mut name) };
    // SAFETY: with this status it is a string of the library, which lives for ever
    (status == sys::PETOOL_OK).then(|| unsafe { library_text(name) })
}

/// How many bytes the longest line of a fault has, with the zero byte at its end.
const LINE: usize = 257;

/// # Safety
///
/// The text is a string of the library, and not of a file.
unsafe fn library_text(text: sys::Text) -> &'static str {
    // SAFETY: the string lives for ever, and nobody writes to it; its pointer is not null, even if it is empty
    let bytes: &'static [u8] = unsafe { slice::from_raw_parts(text.at, text.len) };
    std::str::from_utf8(bytes).unwrap_or("")
}

impl fmt::Display for Fault {
    fn fmt(&self, out: &mut fmt::Formatter<'_>) -> fmt::Result {
        let mut line = [0; LINE];
        // SAFETY: the record is set, does not overlap the line, and the line has the given room
        let whole = unsafe { sys::petool_fault_line(&self.raw(), line.as_mut_ptr().cast(), line.len()) };
        let text = usize::try_from(whole).ok().and_then(|len| line.get(..len));
        out.write_str(text.and_then(|text| std::str::from_utf8(text).ok()).unwrap_or(""))
    }
}

impl std::error::Error for Fault {}

/// Out of memory.
#[derive(Clone, Copy, Debug, PartialEq, Eq, Hash)]
pub struct OutOfMemory;

impl fmt::Display for OutOfMemory {
    fn fmt(&self, out: &mut fmt::Formatter<'_>) -> fmt::Result {
        out.write_str("out of memory")
    }
}

impl std::error::Error for OutOfMemory {}

/// Why a file is refused.
#[derive(Clone, Copy, Debug, PartialEq, Eq, Hash)]
pub enum Error {
    /// A rule of the format is broken.
    Fault(Fault),
    /// Out of memory: this says nothing about the file.
    Memory,
}

impl Error {
    /// What a status other than that of success means.
    pub(crate) fn of(status: u32, fault: sys::Fault) -> Error {
        match status {
            sys::PETOOL_FAULT => Error::Fault(Fault::of(fault)),
            _ => Error::Memory,
        }
    }
}

impl fmt::Display for Error {
    fn fmt(&self, out: &mut fmt::Formatter<'_>) -> fmt::Result {
        match self {
            Error::Fault(fault) => fault.fmt(out),
            Error::Memory => OutOfMemory.fmt(out),
        }
    }
}

impl std::error::Error for Error {}

impl From<Fault> for Error {
    fn from(fault: Fault) -> Error {
        Error::Fault(fault)
    }
}

impl From<OutOfMemory> for Error {
    fn from(_: OutOfMemory) -> Error {
        Error::Memory
    }
}

/// Why a set is refused.
#[derive(Clone, Copy, Debug, PartialEq, Eq, Hash)]
pub enum SetError {
    /// A rule is broken; the fault's `image` is the index of the entry.
    Fault(Fault),
    /// Fault 50: an import leads into a cycle of forwarders.
    Cycle {
        /// Which import.
        fault: Fault,
        /// How many forwarders the cycle has.
        length: u32,
    },
    /// The images have more bytes than the caller allows: nothing else was checked.
    Large,
    /// Out of memory: this says nothing about the set.
    Memory,
}

/// The fault of a cycle, the only one that has a length.
const CYCLE: u16 = 50;

impl SetError {
    /// The fault, even if it is a cycle.
    pub fn fault(&self) -> Option<Fault> {
        match self {
            SetError::Fault(fault) | SetError::Cycle { fault, .. } => Some(*fault),
            SetError::Large | SetError::Memory => None,
        }
    }

    /// What a status other than that of success means.
    pub(crate) fn of(status: u32, fault: sys::Fault, length: u32) -> SetError {
        if status == sys::PETOOL_LARGE {
            return SetError::Large;
        }
        match Error::of(status, fault) {
            Error::Fault(fault) if fault.number == CYCLE => SetError::Cycle { fault, length },
            Error::Fault(fault) => SetError::Fault(fault),
            Error::Memory => SetError::Memory,
        }
    }
}

impl fmt::Display for SetError {
    fn fmt(&self, out: &mut fmt::Formatter<'_>) -> fmt::Result {
        match self {
            SetError::Fault(fault) => write!(out, "image {}: {fault}", fault.image),
            SetError::Cycle { fault, length } => write!(out, "image {}: {fault} of length {length}", fault.image),
            SetError::Large => out.write_str("the images have more bytes than are allowed"),
            SetError::Memory => OutOfMemory.fmt(out),
        }
    }
}

impl std::error::Error for SetError {}

impl From<OutOfMemory> for SetError {
    fn from(_: OutOfMemory) -> SetError {
        SetError::Memory
    }
}

/// Why an image of a space is not moved.
#[derive(Clone, Copy, Debug, PartialEq, Eq, Hash)]
pub enum MoveError {
    /// A rule is broken: 55 or 44 to 47.
    Fault(Fault),
    /// Another space shares the images.
    Shared,
}

impl fmt::Display for MoveError {
    fn fmt(&self, out: &mut fmt::Formatter<'_>) -> fmt::Result {
        match self {
            MoveError::Fault(fault) => fault.fmt(out),
            MoveError::Shared => out.write_str("another space shares the images"),
        }
    }
}

impl std::error::Error for MoveError {}
