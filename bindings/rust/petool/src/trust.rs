//! What an image's file says of itself: its CheckSum, its certificates and signatures, its Rich header and its overlay. It needs the
//! headers alone, so that [`Trust`] has it also of a file that [`Image`] refuses behind them.

use crate::rows::{read_rows, rows_of, text_of};
use crate::{CheckSum, Error, Fault, Image, OutOfMemory, Overlay, RichPair};
use petool_sys as sys;

/// An algorithm whose digests are computed.
#[derive(Clone, Copy, Debug, PartialEq, Eq, Hash)]
#[repr(u32)]
pub enum DigestAlgorithm {
    /// SHA-1, of 20 bytes.
    Sha1 = sys::PETOOL_DIGEST_SHA1,
    /// SHA-256, of 32 bytes.
    Sha256 = sys::PETOOL_DIGEST_SHA256,
    /// SHA-384, of 48 bytes.
    Sha384 = sys::PETOOL_DIGEST_SHA384,
    /// SHA-512, of 64 bytes.
    Sha512 = sys::PETOOL_DIGEST_SHA512,
}

impl DigestAlgorithm {
    fn of(number: u32) -> Option<DigestAlgorithm> {
        match number {
            sys::PETOOL_DIGEST_SHA1 => Some(DigestAlgorithm::Sha1),
            sys::PETOOL_DIGEST_SHA256 => Some(DigestAlgorithm::Sha256),
            sys::PETOOL_DIGEST_SHA384 => Some(DigestAlgorithm::Sha384),
            sys::PETOOL_DIGEST_SHA512 => Some(DigestAlgorithm::Sha512),
            _ => None,
        }
    }
}

/// A digest of a file.
#[derive(Clone, Copy, Debug, PartialEq, Eq, Hash)]
pub struct Digest {
    bytes: [u8; 64],
    len: usize,
}

impl Digest {
    /// Its bytes.
    pub fn as_bytes(&self) -> &[u8] {
        self.bytes.get(..self.len).unwrap_or(&[])
    }
}

/// An entry of the certificate table.
#[derive(Clone, Copy, Debug, PartialEq, Eq, Hash)]
pub struct Certificate<'a> {
    /// The file offset of its header of 8 bytes.
    pub offset: u64,
    /// Its content, behind that header.
    pub bytes: &'a [u8],
    /// Its length, with the header.
    pub length: u32,
    /// The revision of its form, such as 0x200.
    pub revision: u16,
    /// Its type: 2 a signature (PKCS #7).
    pub kind: u16,
}

/// A signature of an image's file (Authenticode), and the digest that it signs. Whether it is valid, and anybody to be trusted, is not
/// asked.
#[derive(Clone, Copy, Debug, PartialEq, Eq, Hash)]
pub struct Signature<'a> {
    /// The file offset of its certificate.
    pub offset: u64,
    /// Its bytes (PKCS #7, SignedData).
    pub bytes: &'a [u8],
    /// The algorithm of the digest, if its digests are computed.
    pub algorithm: Option<DigestAlgorithm>,
    /// The digest that it signs; empty if none can be read.
    pub digest: &'a [u8],
    /// Whether that is the digest of the file; `None` if that is not known.
    pub fits: Option<bool>,
}

/// A certificate that a signature has, by its parts in DER (X.509).
#[derive(Clone, Copy, Debug, PartialEq, Eq, Hash)]
pub struct Signer<'a> {
    /// The serial number, big-endian.
    pub serial: &'a [u8],
    /// The content of the issuer's name.
    pub issuer: &'a [u8],
    /// The content of the subject's name.
    pub subject: &'a [u8],
    /// The common name of the issuer; empty if it has none.
    pub issuer_name: &'a [u8],
    /// The common name of the subject; empty if it has none.
    pub subject_name: &'a [u8],
}

impl<'a> Signature<'a> {
    /// The certificates that it has, as far as they can be read.
    pub fn signers(&self) -> Result<Vec<Signer<'a>>, OutOfMemory> {
        let bytes = self.bytes;
        let rows = read_rows(0, sys::Signer::NONE, |rows, count| {
            // SAFETY: the signature is a complete slice, which nobody writes to; the rows are initialized, and not shared
            unsafe { sys::petool_signers(bytes.as_ptr(), bytes.len(), rows.as_mut_ptr(), rows.len(), count) }
        })
        .map_err(|_| OutOfMemory)?;
        let of = |row: sys::Signer| Signer {
            serial: text_of(bytes, row.serial),
            issuer: text_of(bytes, row.issuer),
            subject: text_of(bytes, row.subject),
            issuer_name: text_of(bytes, row.issuer_name),
            subject_name: text_of(bytes, row.subject_name),
        };
        Ok(rows.into_iter().map(of).collect())
    }
}

/// The Rich header, which says with which tools of Microsoft an image was made.
#[derive(Clone, Debug, PartialEq, Eq, Hash)]
pub struct RichHeader {
    /// The file offset of `DanS`, with which it begins.
    pub offset: u64,
    /// Its key, with which all of it is exclusive-or'ed.
    pub key: u32,
    /// What the key is to be: a sum of the bytes before it and of its pairs.
    pub computed: u32,
    /// Which tool made how many of the image's objects.
    pub pairs: Vec<RichPair>,
}

/// What an image's file says of itself, also one that [`Image`] refuses behind its headers.
///
/// ```
/// use petool::{DigestAlgorithm, Trust};
///
/// let file: &[u8] = include_bytes!("../../../../crates/test_cases/data/v1.dll");
/// let trust = Trust::new(file)?;
/// assert!(trust.signatures()?.is_empty());
/// assert_eq!(trust.digest(DigestAlgorithm::Sha256).unwrap().as_bytes().len(), 32);
/// # Ok::<(), petool::Error>(())
/// ```
#[derive(Clone, Copy, Debug)]
pub struct Trust<'a> {
    file: &'a [u8],
    overlay: Overlay,
}

impl<'a> Trust<'a> {
    /// That of a file whose headers have none of faults 1 to 12.
    pub fn new(file: &'a [u8]) -> Result<Trust<'a>, Error> {
        let (mut overlay, mut fault) = (Overlay::default(), sys::Fault::default());
        // SAFETY: the file is a complete slice, which nobody writes to
        let status = unsafe { sys::petool_overlay(file.as_ptr(), file.len(), &mut overlay, &mut fault) };
        match status {
            sys::PETOOL_OK => Ok(Trust { file, overlay }),
            _ => Err(Error::of(status, fault)),
        }
    }

    /// The file.
    pub fn file(&self) -> &'a [u8] {
        self.file
    }

    /// What it has behind the bytes that its headers name; a certificate table belongs to it.
    pub fn overlay(&self) -> Overlay {
        self.overlay
    }

    /// CheckSum as the headers have it, and as it is to be.
    pub fn check_sum(&self) -> CheckSum {
        let (mut sum, mut fault) = (CheckSum::default(), sys::Fault::default());
        // SAFETY: the file is a complete slice, which nobody writes to; its headers have no fault, so the status is OK
        let _ = unsafe { sys::petool_check_sum(self.file.as_ptr(), self.file.len(), &mut sum, &mut fault) };
        sum
    }

    /// The entries of the certificate table, in table order.
    pub fn certificates(&self) -> Result<Vec<Certificate<'a>>, OutOfMemory> {
        let rows = rows_of(self.file, sys::Certificate::NONE, sys::petool_certificates)?;
        let of = |row: sys::Certificate| Certificate {
            offset: row.offset,
            bytes: text_of(self.file, row.bytes),
            length: row.length,
            revision: row.revision,
            kind: row.kind,
        };
        Ok(rows.into_iter().map(of).collect())
    }

    /// The signatures, in the order of the certificate table. A digest of the file is computed once for each algorithm.
    pub fn signatures(&self) -> Result<Vec<Signature<'a>>, OutOfMemory> {
        let rows = rows_of(self.file, sys::Signature::NONE, sys::petool_authenticode)?;
        let of = |row: sys::Signature| Signature {
            offset: row.offset,
            bytes: text_of(self.file, row.bytes),
            algorithm: DigestAlgorithm::of(row.algorithm),
            digest: text_of(self.file, row.digest),
            fits: match row.fits {
                sys::PETOOL_FIT_YES => Some(true),
                sys::PETOOL_FIT_NO => Some(false),
                _ => None,
            },
        };
        Ok(rows.into_iter().map(of).collect())
    }

    /// The digest of the file that a signature of it is to sign; `None` if what a signature signs is ambiguous: if raw data do not
    /// follow the headers without a gap or an overlap, or the certificate table is not after them at the end of the file.
    pub fn digest(&self, algorithm: DigestAlgorithm) -> Option<Digest> {
        let (mut raw, mut fault) = (sys::Digest::NONE, sys::Fault::default());
        // SAFETY: the file is a complete slice, which nobody writes to
        let status = unsafe {
            sys::petool_authenticode_digest(
                self.file.as_ptr(),
                self.file.len(),
                algorithm as u32,
                &mut raw,
                &mut fault,
            )
        };
        (status == sys::PETOOL_OK).then_some(Digest {
            bytes: raw.bytes,
            len: raw.len as usize,
        })
    }

    /// The import hash: the MD5 digest of what the image imports, told as text, which programs that were built alike have in common.
    /// `None` if it imports nothing, or if that text has over 16 MB. Sections and imports may have a fault of 13 to 32.
    pub fn import_hash(&self) -> Result<Option<[u8; 16]>, Error> {
        let (mut raw, mut fault) = (sys::Digest::NONE, sys::Fault::default());
        // SAFETY: the file is a complete slice, which nobody writes to
        let status = unsafe { sys::petool_import_hash(self.file.as_ptr(), self.file.len(), &mut raw, &mut fault) };
        match status {
            sys::PETOOL_OK => Ok(raw.bytes.first_chunk().copied()),
            sys::PETOOL_ABSENT => Ok(None),
            _ => Err(Error::of(status, fault)),
        }
    }

    /// The Rich header with its pairs, if there is one.
    pub fn rich(&self) -> Result<Option<RichHeader>, OutOfMemory> {
        let (mut raw, mut fault) = (sys::RichHeader::default(), sys::Fault::default());
        // SAFETY: the file is a complete slice, which nobody writes to
        let status = unsafe { sys::petool_rich(self.file.as_ptr(), self.file.len(), &mut raw, &mut fault) };
        if status != sys::PETOOL_OK {
            return Ok(None);
        }
        Ok(Some(RichHeader {
            offset: raw.offset,
            key: raw.key,
            computed: raw.computed,
            pairs: rows_of(self.file, RichPair::default(), sys::petool_rich_pairs)?,
        }))
    }

    /// The rules of the certificate table and of the Rich header that are broken, by number: 221 to 225, and 241.
    /// [`Image::findings`] has them too.
    pub fn findings(&self) -> Result<Vec<Fault>, OutOfMemory> {
        let rows = rows_of(self.file, sys::Fault::default(), sys::petool_trust_findings)?;
        Ok(rows.into_iter().map(Fault::of).collect())
    }
}

impl<'a> Image<'a> {
    /// What its file says of itself.
    pub fn trust(&self) -> Trust<'a> {
        let (mut overlay, mut fault) = (Overlay::default(), sys::Fault::default());
        // SAFETY: the file is a complete slice, which nobody writes to; it has no fault, so the status is OK
        let _ = unsafe { sys::petool_overlay(self.file().as_ptr(), self.file().len(), &mut overlay, &mut fault) };
        Trust {
            file: self.file(),
            overlay,
        }
    }
}
