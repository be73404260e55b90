//! Reads, checks and moves PE images, and reads COFF objects and archives, from files that may be hostile, with the
//! proved calls of libpetool.
//!
//! An [`Image`] is a file without a fault: it is read and checked once, and the contents of its tables are kept. An
//! [`OpenImage`] is the same without a lock, for one thread. [`Headers`] reads headers and sections only. [`Trust`] has what a file says of
//! itself: CheckSum, certificates, signatures, Rich header and overlay. [`judge`] returns what the imports of a set of images are bound
//! to, and [`unbound`] which are bound to nothing; a [`Space`] maps or opens a set and moves its images, an [`Object`] is a COFF
//! object, an [`EitherObject`] one that may be a big object (`/bigobj`), and an [`Archive`] an archive of objects.
//!
//! ```
//! use petool::{Error, Image};
//!
//! let file: &[u8] = include_bytes!("../../../../crates/test_cases/data/vb.dll");
//! let image = Image::new(file)?;
//! for section in image.sections() {
//!     println!("{} at {:#x}", String::from_utf8_lossy(section.text()), section.rva);
//! }
//! for (ordinal, target) in image.tables()?.exports() {
//!     println!("{ordinal}: {target:?}");
//! }
//! // an error says which rule is broken, and where
//! assert!(matches!(Image::new(&file[..63]), Err(Error::Fault(fault)) if fault.number == 2));
//! # Ok::<(), Error>(())
//! ```
//!
//! A file is borrowed as its bytes, and every name that a call returns is a slice of it: nothing is copied. No call
//! panics, whatever the file holds. A status that the header does not allow counts as out of memory, or as absent if a
//! call has no such error: never as success.
#![deny(missing_docs, unsafe_op_in_unsafe_fn)]

mod archive;
mod beyond;
mod either_object;
mod fault;
mod fields;
mod headers;
mod image;
mod object;
mod object_tables;
mod opened;
mod resources;
mod rows;
mod set;
mod space;
mod tables;
mod trust;

pub use archive::{write_archive, Archive, ArchiveMember, ArchiveSymbol, ImportObject, Linker, MemberKind, NewMember};
pub use beyond::{BoundImport, Pdb, PdbSignature, Tls};
pub use either_object::{EitherHeader, EitherObject, EitherSymbol};
pub use fault::{name_of, Error, Fault, MoveError, Named, OutOfMemory, Place, SetError};
pub use fields::{ClrField, ClrHeader, LoadConfiguration, LoadField};
pub use headers::{Headers, Section};
pub use image::Image;
pub use object::{Object, Symbol};
pub use object_tables::ObjectSection;
pub use opened::OpenImage;
// from describe/records.txt: shown records
#[doc(inline)]
pub use petool_sys::{
    BigObjectHeader, Binding, CheckSums as CheckSum, DebugEntry, Directory, Fixup, Function, Moved, ObjectHeader,
    ObjectRelocation as Relocation, OverlayRange as Overlay, RichPair, SectionHeader, TlsDirectory, VersionInfo,
};
// end of describe/records.txt
pub use resources::{Resource, ResourceName, Utf16, VersionString};
pub use set::{judge, unbound, Entry, Policy, UnboundImport};
pub use space::{Placed, Space};
pub use tables::{Import, Key, Tables, Target};
pub use trust::{Certificate, Digest, DigestAlgorithm, RichHeader, Signature, Signer, Trust};
