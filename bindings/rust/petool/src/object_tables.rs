//! What objects of both forms have: headers, sections and relocations, read by the calls of one form.

use crate::rows::{room_of, rows_of, text_of, translated, RowsCall};
use crate::{OutOfMemory, Relocation, SectionHeader};
use petool_sys as sys;
use std::sync::{Mutex, PoisonError};

/// At least how many relocations are read at once, if there are that many.
const WINDOW: usize = 4096;

/// A section of an object.
#[derive(Clone, Copy, Debug, PartialEq, Eq)]
pub struct ObjectSection<'a> {
    /// Its name, also if it is in the string table.
    pub name: &'a [u8],
    /// Its bytes; empty if the file holds none.
    pub bytes: &'a [u8],
    /// SizeOfRawData if the file holds no bytes; otherwise 0.
    pub absent_size: u32,
    /// VirtualSize.
    pub virtual_size: u32,
    /// VirtualAddress.
    pub virtual_address: u32,
    /// The section's flags.
    pub characteristics: u32,
    /// How many relocations it has.
    pub relocation_count: u32,
}

impl<'a> ObjectSection<'a> {
    const NONE: ObjectSection<'a> = ObjectSection {
        name: &[],
        bytes: &[],
        absent_size: 0,
        virtual_size: 0,
        virtual_address: 0,
        characteristics: 0,
        relocation_count: 0,
    };

    fn of(file: &'a [u8], raw: &sys::ObjectSection) -> ObjectSection<'a> {
        ObjectSection {
            name: text_of(file, raw.name),
            bytes: text_of(file, raw.bytes),
            absent_size: raw.absent_size,
            virtual_size: raw.virtual_size,
            virtual_address: raw.virtual_address,
            characteristics: raw.characteristics,
            relocation_count: raw.relocation_count,
        }
    }
}

/// A call that reads the relocations of all sections after the first ones.
type AllRelocations =
    unsafe extern "C" fn(*const u8, usize, usize, *mut Relocation, usize, *mut usize, *mut sys::Fault) -> u32;

/// A call that reads a header and section headers.
type HeadersCall<Header> =
    unsafe extern "C" fn(*const u8, usize, *mut Header, *mut SectionHeader, usize, *mut sys::Fault) -> u32;

/// The calls that read sections and relocations.
#[derive(Clone, Copy, Debug)]
pub(crate) struct Calls {
    pub(crate) sections: RowsCall<sys::ObjectSection>,
    pub(crate) all_relocations: AllRelocations,
}

/// The file of an object that has been checked, and the relocations that were read last.
#[derive(Debug)]
pub(crate) struct ObjectTables<'a> {
    pub(crate) file: &'a [u8],
    calls: Calls,
    window: Mutex<Window>,
}

/// Consecutive relocations among those of all sections.
#[derive(Debug, Default)]
struct Window {
    /// The index of each section's first relocation among all, then the count of all; empty until it is needed.
    starts: Vec<usize>,
    /// How many come before the first row.
    first: usize,
    rows: Vec<Relocation>,
}

impl Clone for ObjectTables<'_> {
    fn clone(&self) -> Self {
        ObjectTables::new(self.file, self.calls)
    }
}

impl<'a> ObjectTables<'a> {
    pub(crate) fn new(file: &'a [u8], calls: Calls) -> ObjectTables<'a> {
        ObjectTables {
            file,
            calls,
            window: Mutex::default(),
        }
    }

    /// The header that a call reads, and as many section headers as there are rows.
    pub(crate) fn headers<Header: Default>(
        &self,
        call: HeadersCall<Header>,
        rows: &mut [SectionHeader],
    ) -> Result<Header, OutOfMemory> {
        let (mut header, mut fault) = (Header::default(), sys::Fault::default());
        // SAFETY: the file is a complete slice, which nobody writes to; the rows are not shared
        let status = unsafe {
            call(
                self.file.as_ptr(),
                self.file.len(),
                &mut header,
                rows.as_mut_ptr(),
                rows.len(),
                &mut fault,
            )
        };
        match status {
            sys::PETOOL_OK => Ok(header),
            _ => Err(OutOfMemory),
        }
    }

    /// So many section headers, in the order of their table.
    pub(crate) fn section_headers<Header: Default>(
        &self,
        call: HeadersCall<Header>,
        count: usize,
    ) -> Result<Vec<SectionHeader>, OutOfMemory> {
        let mut rows = room_of(SectionHeader::default(), count)?;
        self.headers(call, &mut rows)?;
        Ok(rows)
    }

    /// The sections, in the order of their table.
    pub(crate) fn sections(&self) -> Result<Vec<ObjectSection<'a>>, OutOfMemory> {
        let rows = rows_of(self.file, sys::ObjectSection::NONE, self.calls.sections)?;
        translated(&rows, ObjectSection::NONE, |row| ObjectSection::of(self.file, row))
    }

    /// The relocations of a section, counted from 0; `None` if there is no such section.
    pub(crate) fn relocations(&self, section: usize) -> Result<Option<Vec<Relocation>>, OutOfMemory> {
        let mut window = self.window.lock().unwrap_or_else(PoisonError::into_inner);
        if window.starts.is_empty() {
            window.starts = self.starts()?;
        }
        let (start, end) = match window.starts.get(section..section.saturating_add(2)) {
            Some(&[start, end]) => (start, end),
            _ => return Ok(None),
        };
        if start == end {
            return Ok(Some(Vec::new()));
        }
        if start < window.first || window.first + window.rows.len() < end {
            let behind = window.starts[window.starts.len() - 1] - start;
            window.rows = self.relocations_from(start, WINDOW.max(end - start).min(behind))?;
            window.first = start;
        }
        let of_section = &window.rows[start - window.first..end - window.first];
        let mut rows = room_of(Relocation::default(), of_section.len())?;
        rows.copy_from_slice(of_section);
        Ok(Some(rows))
    }

    /// The index of each section's first relocation among all, then the count of all.
    fn starts(&self) -> Result<Vec<usize>, OutOfMemory> {
        let sections = rows_of(self.file, sys::ObjectSection::NONE, self.calls.sections)?;
        let mut starts = room_of(0, sections.len() + 1)?;
        for (index, section) in sections.iter().enumerate() {
            starts[index + 1] = starts[index] + section.relocation_count as usize;
        }
        Ok(starts)
    }

    /// The relocations of all sections after the first `skipped` ones, in `room` rows.
    fn relocations_from(&self, skipped: usize, room: usize) -> Result<Vec<Relocation>, OutOfMemory> {
        let mut rows = room_of(Relocation::default(), room)?;
        let (mut count, mut fault) = (0, sys::Fault::default());
        // SAFETY: the file is a complete slice, which nobody writes to; the rows are not shared
        let status = unsafe {
            (self.calls.all_relocations)(
                self.file.as_ptr(),
                self.file.len(),
                skipped,
                rows.as_mut_ptr(),
                rows.len(),
                &mut count,
                &mut fault,
            )
        };
        match status {
            sys::PETOOL_OK | sys::PETOOL_SMALL => Ok(rows),
            _ => Err(OutOfMemory),
        }
    }
}
