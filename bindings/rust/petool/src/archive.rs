//! Archives of COFF objects.

use crate::rows::{read_rows, room_of, rows_of, text_of};
use crate::{Error, Fault, OutOfMemory};
use petool_sys as sys;

/// An archive of COFF objects: a file that begins as one. What is wrong with its members refuses no archive:
/// [`Archive::findings`] has it.
///
/// ```
/// let archive = petool::Archive::new(b"!<arch>\n")?;
/// assert!(archive.members()?.is_empty());
/// # Ok::<(), Box<dyn std::error::Error>>(())
/// ```
#[derive(Clone, Copy, Debug)]
pub struct Archive<'a> {
    file: &'a [u8],
}

/// What a member of an archive is.
#[derive(Clone, Copy, Debug, PartialEq, Eq, Hash)]
pub enum MemberKind {
    /// A file, mostly a COFF object.
    File,
    /// A short import object, which [`ImportObject::new`] reads.
    Import,
    /// A linker member, which has symbols of the archive.
    Linker,
    /// The member that has long names.
    LongNames,
    /// Another one that the archive keeps for itself.
    Own,
    /// One of a thin archive, whose bytes are in another file.
    Apart,
}

/// A member of an archive. A field of its header that holds no number is `None`.
#[derive(Clone, Copy, Debug, PartialEq, Eq, Hash)]
pub struct ArchiveMember<'a> {
    /// Its name; `None` if its field leads to no text, which is finding 304.
    pub name: Option<&'a [u8]>,
    /// What it holds, without its name; empty if that is in another file.
    pub bytes: &'a [u8],
    /// The file offset of its header.
    pub offset: u64,
    /// How many bytes its header gives it, with those of a name that is at its front.
    pub size: u64,
    /// When it was written, in seconds since 1970.
    pub date: Option<u64>,
    /// The user who owns it.
    pub user: Option<u64>,
    /// The group that owns it.
    pub group: Option<u64>,
    /// How it may be used, as Unix has it.
    pub mode: Option<u64>,
    /// What it is.
    pub kind: MemberKind,
}

/// One of the two linker members of an archive.
#[derive(Clone, Copy, Debug, PartialEq, Eq, Hash)]
pub enum Linker {
    /// The first: an offset for each symbol.
    First,
    /// The second: an offset for each member, and an index for each symbol.
    Second,
}

/// A symbol of a linker member.
#[derive(Clone, Copy, Debug, PartialEq, Eq, Hash)]
pub struct ArchiveSymbol<'a> {
    /// Its name.
    pub name: &'a [u8],
    /// The file offset of the header of the member that defines it; `None` if its index has no offset.
    pub member: Option<u64>,
}

/// A short import object, which an import library has for each name that a DLL exports.
#[derive(Clone, Copy, Debug, PartialEq, Eq, Hash)]
pub struct ImportObject<'a> {
    /// The public symbol.
    pub symbol: &'a [u8],
    /// The DLL.
    pub module: &'a [u8],
    /// The name that is imported; `None` if the import is by ordinal.
    pub name: Option<&'a [u8]>,
    /// The ordinal, or the hint.
    pub ordinal: u16,
    /// What is imported: 0 code, 1 data, 2 a constant.
    pub kind: u8,
    /// 0 by ordinal; otherwise how the name is made of the symbol.
    pub name_type: u8,
    /// The processor.
    pub machine: u16,
    /// When it was made, as its maker wrote it.
    pub time_date_stamp: u32,
}

fn number_of(raw: sys::Field) -> Option<u64> {
    raw.is_present.then_some(raw.value)
}

fn kind_of(raw: u32) -> MemberKind {
    match raw {
        sys::PETOOL_MEMBER_IMPORT => MemberKind::Import,
        sys::PETOOL_MEMBER_LINKER => MemberKind::Linker,
        sys::PETOOL_MEMBER_LONG_NAMES => MemberKind::LongNames,
        sys::PETOOL_MEMBER_OWN => MemberKind::Own,
        sys::PETOOL_MEMBER_APART => MemberKind::Apart,
        _ => MemberKind::File,
    }
}

impl<'a> ArchiveMember<'a> {
    fn of(file: &'a [u8], raw: &sys::ArchiveMember) -> ArchiveMember<'a> {
        ArchiveMember {
            name: raw.has_name.then(|| text_of(file, raw.name)),
            bytes: text_of(file, raw.bytes),
            offset: raw.offset,
            size: raw.size,
            date: number_of(raw.date),
            user: number_of(raw.user),
            group: number_of(raw.group),
            mode: number_of(raw.mode),
            kind: kind_of(raw.kind),
        }
    }
}

impl<'a> ImportObject<'a> {
    /// The short import object that a member holds, given its bytes; `None` if they begin as none. The fault is the first of 331 to
    /// 333, at offset 0 of these bytes.
    pub fn new(member: &'a [u8]) -> Result<Option<ImportObject<'a>>, Fault> {
        let (mut found, mut fault) = (sys::ImportObject::NONE, sys::Fault::default());
        // SAFETY: the member is a complete slice, which nobody writes to; the record is initialized
        let status = unsafe { sys::petool_archive_import(member.as_ptr(), member.len(), &mut found, &mut fault) };
        match status {
            sys::PETOOL_OK => Ok(Some(ImportObject::of(member, &found))),
            sys::PETOOL_ABSENT => Ok(None),
            _ => Err(Fault::of(fault)),
        }
    }

    fn of(member: &'a [u8], raw: &sys::ImportObject) -> ImportObject<'a> {
        ImportObject {
            symbol: text_of(member, raw.symbol),
            module: text_of(member, raw.module),
            name: (raw.name_type != 0).then(|| text_of(member, raw.name)),
            ordinal: raw.ordinal,
            kind: raw.kind,
            name_type: raw.name_type,
            machine: raw.machine,
            time_date_stamp: raw.time_date_stamp,
        }
    }
}

impl<'a> Archive<'a> {
    /// Checks that a file begins as an archive, without allocating: otherwise it has fault 1 or 300. A status that the
    /// header does not allow is shown as fault 0, which does not exist.
    pub fn new(file: &'a [u8]) -> Result<Archive<'a>, Fault> {
        let mut fault = sys::Fault::default();
        // SAFETY: the file is a complete slice, which nobody writes to
        let status = unsafe { sys::petool_archive_check(file.as_ptr(), file.len(), &mut fault) };
        match status {
            sys::PETOOL_OK => Ok(Archive { file }),
            _ => Err(Fault::of(fault)),
        }
    }

    /// Its members in file order, with those that it keeps for itself, up to the first header with one of findings 301
    /// to 303.
    pub fn members(&self) -> Result<Vec<ArchiveMember<'a>>, OutOfMemory> {
        let rows = rows_of(self.file, sys::ArchiveMember::NONE, sys::petool_archive_members)?;
        Ok(rows.iter().map(|row| ArchiveMember::of(self.file, row)).collect())
    }

    /// The symbols of one of its linker members, in table order and up to the first one without a name; `None` if it has
    /// no such member.
    pub fn symbols(&self, linker: Linker) -> Result<Option<Vec<ArchiveSymbol<'a>>>, OutOfMemory> {
        let number = match linker {
            Linker::First => 1,
            Linker::Second => 2,
        };
        let mut fault = sys::Fault::default();
        let found = read_rows(0, sys::ArchiveSymbol::NONE, |rows, count| {
            // SAFETY: the file is a complete slice, which nobody writes to; the rows are initialized, and not shared
            unsafe {
                sys::petool_archive_symbols(
                    self.file.as_ptr(),
                    self.file.len(),
                    number,
                    rows.as_mut_ptr(),
                    rows.len(),
                    count,
                    &mut fault,
                )
            }
        });
        let of = |row: &sys::ArchiveSymbol| ArchiveSymbol {
            name: text_of(self.file, row.name),
            member: number_of(row.member),
        };
        match found {
            Ok(rows) => Ok(Some(rows.iter().map(of).collect())),
            Err(sys::PETOOL_ABSENT) => Ok(None),
            Err(_) => Err(OutOfMemory),
        }
    }

    /// Which rules it breaks: 301 to 304 of its members in file order, 305 and 306 of the first linker member and of the
    /// second, and then the first of 331 to 333 of each short import object. Objects are not read: [`crate::Object`]
    /// reads them.
    pub fn findings(&self) -> Result<Vec<Fault>, OutOfMemory> {
        let rows = rows_of(self.file, sys::Fault::default(), sys::petool_archive_findings)?;
        Ok(rows.into_iter().map(Fault::of).collect())
    }
}

/// A member of an archive to be written.
#[derive(Clone, Copy, Debug, PartialEq, Eq, Hash)]
pub struct NewMember<'a> {
    /// Its name, which may have `/` in it, but not at its end.
    pub name: &'a [u8],
    /// What it holds: an object, a short import object, or anything else.
    pub bytes: &'a [u8],
}

/// How many bytes an archive is guessed to have for each member, with its symbols.
const MEMBER_GUESS: usize = 1024;

/// The archive of members. It has both linker members, which name the public symbols of the objects. The fault is the
/// first of 91 to 93, at the index of a member.
///
/// ```
/// use petool::{write_archive, Archive, NewMember};
///
/// let file = write_archive(&[NewMember { name: b"a.txt", bytes: b"a text" }])?;
/// assert_eq!(Archive::new(&file)?.members()?[2].name, Some(&b"a.txt"[..]));
/// # Ok::<(), Box<dyn std::error::Error>>(())
/// ```
pub fn write_archive(members: &[NewMember<'_>]) -> Result<Vec<u8>, Error> {
    let blank = sys::NewMember {
        name: sys::Text::of(b""),
        bytes: sys::Text::of(b""),
    };
    let mut raw = room_of(blank, members.len())?;
    for (row, member) in raw.iter_mut().zip(members) {
        *row = sys::NewMember {
            name: sys::Text::of(member.name),
            bytes: sys::Text::of(member.bytes),
        };
    }
    let guess = members.iter().fold(0, |sum: usize, it| {
        sum.saturating_add(it.bytes.len()).saturating_add(MEMBER_GUESS)
    });
    let mut fault = sys::Fault::default();
    let written = read_rows(guess, 0, |buffer, count| {
        // SAFETY: the members and their texts are complete slices, which nobody writes to; the buffer is not shared
        unsafe {
            sys::petool_archive_write(
                raw.as_ptr(),
                raw.len(),
                buffer.as_mut_ptr(),
                buffer.len(),
                count,
                &mut fault,
            )
        }
    });
    written.map_err(|status| Error::of(status, fault))
}
