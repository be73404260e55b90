//! COFF objects.

use crate::object_tables::{Calls, ObjectSection, ObjectTables};
use crate::rows::{rows_of, text_of, translated};
use crate::{Fault, ObjectHeader, OutOfMemory, Relocation, SectionHeader};
use petool_sys as sys;

/// A COFF object with none of faults 61 to 72. A big object (`/bigobj`) has 62: [`EitherObject`](crate::EitherObject) is
/// one of either form.
///
/// ```
/// let file: &[u8] = include_bytes!("../../../../crates/test_cases/data/o1.obj");
/// let object = petool::Object::new(file)?;
/// assert_eq!(object.sections()?[0].name, b".text$long");
/// # Ok::<(), Box<dyn std::error::Error>>(())
/// ```
#[derive(Clone, Debug)]
pub struct Object<'a> {
    tables: ObjectTables<'a>,
}

/// A symbol of an object.
#[derive(Clone, Copy, Debug, PartialEq, Eq)]
pub struct Symbol<'a> {
    /// Its name, also if it is in the string table.
    pub name: &'a [u8],
    /// 18 bytes for each auxiliary record.
    pub aux: &'a [u8],
    /// The index of its record, to which relocations refer.
    pub index: u32,
    /// Its value, whose meaning depends on the section and the class.
    pub value: u32,
    /// The section's number, counted from 1; 0 UNDEFINED, 0xffff ABSOLUTE, 0xfffe DEBUG.
    pub section_number: u16,
    /// Its type.
    pub kind: u16,
    /// The storage class.
    pub class: u8,
}

impl<'a> Symbol<'a> {
    pub(crate) const NONE: Symbol<'a> = Symbol {
        name: &[],
        aux: &[],
        index: 0,
        value: 0,
        section_number: 0,
        kind: 0,
        class: 0,
    };

    pub(crate) fn of(file: &'a [u8], raw: &sys::ObjectSymbol) -> Symbol<'a> {
        Symbol {
            name: text_of(file, raw.name),
            aux: text_of(file, raw.aux),
            index: raw.index,
            value: raw.value,
            section_number: raw.section_number,
            kind: raw.kind,
            class: raw.class_,
        }
    }
}

const CALLS: Calls = Calls {
    sections: sys::petool_object_sections,
    all_relocations: sys::petool_object_all_relocations,
};

impl<'a> Object<'a> {
    /// Checks a file, without allocating. A status that the header does not allow is shown as fault 0, which does not
    /// exist.
    pub fn new(file: &'a [u8]) -> Result<Object<'a>, Fault> {
        let mut fault = sys::Fault::default();
        // SAFETY: the file is a complete slice, which nobody writes to
        let status = unsafe { sys::petool_object_check(file.as_ptr(), file.len(), &mut fault) };
        match status {
            sys::PETOOL_OK => Ok(Object {
                tables: ObjectTables::new(file, CALLS),
            }),
            _ => Err(Fault::of(fault)),
        }
    }

    /// Its COFF file header.
    pub fn header(&self) -> Result<ObjectHeader, OutOfMemory> {
        self.tables.headers(sys::petool_object_headers, &mut [])
    }

    /// Its section headers, in the order of their table, each field as the file has it.
    pub fn section_headers(&self) -> Result<Vec<SectionHeader>, OutOfMemory> {
        let count = usize::from(self.header()?.number_of_sections);
        self.tables.section_headers(sys::petool_object_headers, count)
    }

    /// Its sections, in the order of their table.
    pub fn sections(&self) -> Result<Vec<ObjectSection<'a>>, OutOfMemory> {
        self.tables.sections()
    }

    /// Its symbols, in the order of their table.
    pub fn symbols(&self) -> Result<Vec<Symbol<'a>>, OutOfMemory> {
        let file = self.tables.file;
        let rows = rows_of(file, sys::ObjectSymbol::NONE, sys::petool_object_symbols)?;
        translated(&rows, Symbol::NONE, |row| Symbol::of(file, row))
    }

    /// The relocations of a section, counted from 0; `None` if there is no such section.
    ///
    /// They are read with those of the sections after it, some thousands at once, which are kept until others are read:
    /// so go through the sections in order.
    pub fn relocations(&self, section: usize) -> Result<Option<Vec<Relocation>>, OutOfMemory> {
        self.tables.relocations(section)
    }
}
