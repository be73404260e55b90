//! COFF objects of either form, plain or big.

use crate::object_tables::{Calls, ObjectSection, ObjectTables};
use crate::rows::{rows_of, text_of, translated};
use crate::{BigObjectHeader, Fault, ObjectHeader, OutOfMemory, Relocation, SectionHeader};
use petool_sys as sys;

/// A COFF object of either form, plain or big (`/bigobj`), with none of faults 61 to 72. A file that begins with Machine
/// 0 and 0xffff sections is checked as a big object, and each other file as a plain one.
///
/// ```
/// let file: &[u8] = include_bytes!("../../../../crates/test_cases/data/o1.obj");
/// let object = petool::EitherObject::new(file)?;
/// assert!(!object.is_big());
/// assert_eq!(object.symbols()?[1].section_number, 1);
/// # Ok::<(), Box<dyn std::error::Error>>(())
/// ```
#[derive(Clone, Debug)]
pub struct EitherObject<'a> {
    tables: ObjectTables<'a>,
    is_big: bool,
}

/// The header of an object of either form.
#[derive(Clone, Copy, Debug, PartialEq, Eq)]
pub enum EitherHeader {
    /// The COFF file header of a plain object.
    Plain(ObjectHeader),
    /// The header of a big object.
    Big(BigObjectHeader),
}

/// A symbol of an object of either form.
#[derive(Clone, Copy, Debug, PartialEq, Eq)]
pub struct EitherSymbol<'a> {
    /// Its name, also if it is in the string table.
    pub name: &'a [u8],
    /// 18 bytes for each auxiliary record of a plain object, 20 of a big one.
    pub aux: &'a [u8],
    /// The index of its record, to which relocations refer.
    pub index: u32,
    /// Its value, whose meaning depends on the section and the class.
    pub value: u32,
    /// The section's number, counted from 1; 0 UNDEFINED, 0xffff_ffff ABSOLUTE, 0xffff_fffe DEBUG, in a plain object too.
    pub section_number: u32,
    /// Its type.
    pub kind: u16,
    /// The storage class.
    pub class: u8,
}

impl EitherHeader {
    /// How many section headers there are.
    fn number_of_sections(&self) -> usize {
        match self {
            EitherHeader::Plain(header) => usize::from(header.number_of_sections),
            EitherHeader::Big(header) => header.number_of_sections as usize,
        }
    }
}

impl<'a> EitherSymbol<'a> {
    const NONE: EitherSymbol<'a> = EitherSymbol {
        name: &[],
        aux: &[],
        index: 0,
        value: 0,
        section_number: 0,
        kind: 0,
        class: 0,
    };

    fn of(file: &'a [u8], raw: &sys::EitherObjectSymbol) -> EitherSymbol<'a> {
        EitherSymbol {
            name: text_of(file, raw.name),
            aux: text_of(file, raw.aux),
            index: raw.index,
            value: raw.value,
            section_number: raw.section_number,
            kind: raw.kind,
            class: raw.class_,
        }
    }
}

const CALLS: Calls = Calls {
    sections: sys::petool_either_object_sections,
    all_relocations: sys::petool_either_object_all_relocations,
};

impl<'a> EitherObject<'a> {
    /// Checks a file, without allocating. A status that the header does not allow is shown as fault 0, which does not
    /// exist.
    pub fn new(file: &'a [u8]) -> Result<EitherObject<'a>, Fault> {
        let (mut is_big, mut fault) = (false, sys::Fault::default());
        // SAFETY: the file is a complete slice, which nobody writes to
        let status = unsafe { sys::petool_either_object_check(file.as_ptr(), file.len(), &mut is_big, &mut fault) };
        match status {
            sys::PETOOL_OK => Ok(EitherObject {
                tables: ObjectTables::new(file, CALLS),
                is_big,
            }),
            _ => Err(Fault::of(fault)),
        }
    }

    /// Whether it is a big object.
    pub fn is_big(&self) -> bool {
        self.is_big
    }

    /// Its header.
    pub fn header(&self) -> Result<EitherHeader, OutOfMemory> {
        if self.is_big {
            let header = self.tables.headers(sys::petool_big_object_headers, &mut [])?;
            return Ok(EitherHeader::Big(header));
        }
        let header = self.tables.headers(sys::petool_object_headers, &mut [])?;
        Ok(EitherHeader::Plain(header))
    }

    /// Its section headers, in the order of their table, each field as the file has it.
    pub fn section_headers(&self) -> Result<Vec<SectionHeader>, OutOfMemory> {
        let count = self.header()?.number_of_sections();
        if self.is_big {
            return self.tables.section_headers(sys::petool_big_object_headers, count);
        }
        self.tables.section_headers(sys::petool_object_headers, count)
    }

    /// Its sections, in the order of their table.
    pub fn sections(&self) -> Result<Vec<ObjectSection<'a>>, OutOfMemory> {
        self.tables.sections()
    }

    /// Its symbols, in the order of their table.
    pub fn symbols(&self) -> Result<Vec<EitherSymbol<'a>>, OutOfMemory> {
        let file = self.tables.file;
        let rows = rows_of(file, sys::EitherObjectSymbol::NONE, sys::petool_either_object_symbols)?;
        translated(&rows, EitherSymbol::NONE, |row| EitherSymbol::of(file, row))
    }

    /// The relocations of a section, counted from 0, as [`Object::relocations`](crate::Object::relocations) has them;
    /// `None` if there is no such section.
    pub fn relocations(&self, section: usize) -> Result<Option<Vec<Relocation>>, OutOfMemory> {
        self.tables.relocations(section)
    }
}
