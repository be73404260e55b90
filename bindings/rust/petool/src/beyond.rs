//! The tables of an image beyond the profile: debug data, functions, TLS, structures of fields, bound imports, and findings.
//! No rule of theirs refuses an image.

use crate::rows::{rows_of, text_of, translated, RowsCall};
use crate::{
    ClrHeader, DebugEntry, Fault, Function, Image, Import, LoadConfiguration, OutOfMemory, Symbol, TlsDirectory,
};
use petool_sys as sys;

/// What tells a PDB file from others of its name.
#[derive(Clone, Copy, Debug, PartialEq, Eq, Hash)]
pub enum PdbSignature {
    /// The GUID of a PDB 7.0 file, in the order of the image's bytes: its first three numbers are little-endian.
    Guid([u8; 16]),
    /// When a PDB 2.0 file was made, in seconds since 1970.
    TimeDateStamp(u32),
}

/// Which PDB file belongs to an image.
#[derive(Clone, Copy, Debug, PartialEq, Eq, Hash)]
pub struct Pdb<'a> {
    /// Its path where it was made; empty if no zero byte ends it.
    pub path: &'a [u8],
    /// What tells it from others of its name.
    pub signature: PdbSignature,
    /// How often the file was written.
    pub age: u32,
    /// Where the debug data of a PDB 2.0 file begins in it, mostly 0; otherwise 0.
    pub offset: u32,
}

impl<'a> Pdb<'a> {
    fn of(file: &'a [u8], raw: &sys::PdbFile) -> Pdb<'a> {
        let signature = match raw.kind {
            sys::PETOOL_PDB_TWO => PdbSignature::TimeDateStamp(raw.time_date_stamp),
            _ => PdbSignature::Guid(raw.guid),
        };
        Pdb {
            path: text_of(file, raw.path),
            signature,
            age: raw.age,
            offset: raw.offset,
        }
    }
}

/// The TLS directory of an image, with its callbacks.
#[derive(Clone, Debug, PartialEq, Eq, Hash)]
pub struct Tls {
    /// Its fields.
    pub directory: TlsDirectory,
    /// The address of each callback, up to the first that is 0.
    pub callbacks: Vec<u64>,
}

/// A record of the bound import table: of a module, or of a module that it forwards to.
#[derive(Clone, Copy, Debug, PartialEq, Eq, Hash)]
pub struct BoundImport<'a> {
    /// The module's name; `None` if there is no string.
    pub module: Option<&'a [u8]>,
    /// The time stamp of the module when it was bound.
    pub time_date_stamp: u32,
    /// How many records after this one are of modules that it forwards to; reserved in a record of those.
    pub forwarder_count: u16,
}

/// The data directory of the bound import table.
const BOUND_IMPORT: usize = 11;

impl<'a> Image<'a> {
    /// The entries of its debug directory, in table order.
    pub fn debug(&self) -> Result<Vec<DebugEntry>, OutOfMemory> {
        self.rows_by(DebugEntry::default(), sys::petool_debug)
    }

    /// The PDB file that the first entry of the debug directory names that names one.
    pub fn pdb(&self) -> Option<Pdb<'a>> {
        let (mut raw, mut fault) = (sys::PdbFile::NONE, sys::Fault::default());
        // SAFETY: the file is a complete slice, which nobody writes to; the record's text is initialized
        let status = unsafe { sys::petool_pdb(self.file().as_ptr(), self.file().len(), &mut raw, &mut fault) };
        (status == sys::PETOOL_OK).then(|| Pdb::of(self.file(), &raw))
    }

    /// The functions of its exception table, in table order. A machine other than AMD64, ARM64 and ARMNT has none.
    pub fn functions(&self) -> Result<Vec<Function>, OutOfMemory> {
        self.rows_by(Function::default(), sys::petool_functions)
    }

    /// Its TLS directory, if it has one.
    pub fn tls(&self) -> Result<Option<Tls>, OutOfMemory> {
        let (mut directory, mut fault) = (TlsDirectory::default(), sys::Fault::default());
        // SAFETY: the file is a complete slice, which nobody writes to
        let status = unsafe { sys::petool_tls(self.file().as_ptr(), self.file().len(), &mut directory, &mut fault) };
        if status != sys::PETOOL_OK {
            return Ok(None);
        }
        let rows = self.rows_by(sys::Callback::default(), sys::petool_tls_callbacks)?;
        let callbacks = rows.iter().map(|row| row.address).collect();
        Ok(Some(Tls { directory, callbacks }))
    }

    /// Its load configuration; `None` if it has none, or the file does not hold its field Size.
    pub fn load_configuration(&self) -> Result<Option<LoadConfiguration>, OutOfMemory> {
        let rows = self.rows_by(sys::Field::default(), sys::petool_load_configuration)?;
        Ok((!rows.is_empty()).then(|| LoadConfiguration(rows)))
    }

    /// Its CLR header; `None` if it has none, or the file does not hold its field cb.
    pub fn clr(&self) -> Result<Option<ClrHeader>, OutOfMemory> {
        let rows = self.rows_by(sys::Field::default(), sys::petool_clr)?;
        Ok((!rows.is_empty()).then(|| ClrHeader(rows)))
    }

    /// The records of its bound import table before the first that is all zeros, in table order.
    pub fn bound_imports(&self) -> Result<Vec<BoundImport<'a>>, OutOfMemory> {
        let start = self.headers().directories[BOUND_IMPORT].rva;
        let rows = self.rows_by(sys::BoundImport::default(), sys::petool_bound_imports)?;
        let of = |row: sys::BoundImport| BoundImport {
            module: start
                .checked_add(row.offset_module_name.into())
                .and_then(|rva| self.text(rva)),
            time_date_stamp: row.time_date_stamp,
            forwarder_count: row.number_of_module_forwarder_refs,
        };
        Ok(rows.into_iter().map(of).collect())
    }

    /// What it imports when it first calls it, in the order of its delay-load directory table: the imports of each descriptor that has
    /// none of the findings 162 to 167.
    pub fn delay_imports(&self) -> Result<Vec<Import<'a>>, OutOfMemory> {
        let rows = self.rows_by(sys::Import::NONE, sys::petool_delay_imports)?;
        Ok(rows.iter().map(|row| Import::of(self.file(), row)).collect())
    }

    /// Its COFF symbols, in the order of their table: those whose records the file holds. A name that leads to no string is empty.
    pub fn symbols(&self) -> Result<Vec<Symbol<'a>>, OutOfMemory> {
        let rows = self.rows_by(sys::ObjectSymbol::NONE, sys::petool_image_symbols)?;
        translated(&rows, Symbol::NONE, |row| Symbol::of(self.file(), row))
    }

    /// The rules of these tables, of the certificate table, of the Rich header and of the symbol table that are broken, by table in the
    /// order of their numbers, which are from 101 on.
    pub fn findings(&self) -> Result<Vec<Fault>, OutOfMemory> {
        let rows = self.rows_by(sys::Fault::default(), sys::petool_findings)?;
        Ok(rows.into_iter().map(Fault::of).collect())
    }

    /// All rows that a call has of the file, which has no fault that it could return.
    fn rows_by<Row: Copy>(&self, blank: Row, call: RowsCall<Row>) -> Result<Vec<Row>, OutOfMemory> {
        rows_of(self.file(), blank, call)
    }
}
