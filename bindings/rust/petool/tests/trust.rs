//! What a file says of itself. The files are images without sections, put together field by field and element by element; digests are
//! those that `sha256sum` prints of the bytes that a signature signs.

use petool::{DigestAlgorithm, Error, Image, Place, RichPair, Trust};

/// Where the certificate table begins, which is where the headers end.
const END: usize = 0xe0;

fn element(tag: u8, parts: &[&[u8]]) -> Vec<u8> {
    let content = parts.concat();
    let head: &[u8] = if content.len() < 128 { &[] } else { &[0x81] };
    [&[tag], head, &[content.len() as u8], &content].concat()
}

/// An image of PE32 that has only headers, with five directories, and a certificate table of this size behind them.
fn image(table: &[u8]) -> Vec<u8> {
    let mut file = vec![0; END];
    let mut put = |at: usize, bytes: &[u8]| file[at..at + bytes.len()].copy_from_slice(bytes);
    put(0, b"MZ");
    put(0x3c, b"\x40");
    put(0x40, b"PE\0\0\x4c\x01");
    put(0x54, &[0x88, 0, 2, 0x21]);
    put(0x58, b"\x0b\x01");
    put(0x77, b"\x10\0\x10");
    put(0x7d, b"\x02");
    put(0x91, b"\x10");
    put(0x94, &[END as u8]);
    put(0xb4, &[5]);
    if !table.is_empty() {
        put(0xd8, &[END as u8, 0, 0, 0, table.len() as u8, (table.len() >> 8) as u8]);
    }
    file.extend_from_slice(table);
    file
}

/// An entry of the certificate table.
fn entry(kind: u8, content: &[u8]) -> Vec<u8> {
    let len = 8 + content.len();
    let mut entry = [&(len as u32).to_le_bytes()[..], &[0, 2, kind, 0], content].concat();
    entry.resize((len + 7) / 8 * 8, 0);
    entry
}

/// A signature of a SHA-256 digest, with a certificate of the serial number 0x1234.
fn signature(digest: &[u8]) -> Vec<u8> {
    let name = |text: &[u8]| {
        let attribute = element(0x30, &[&element(6, &[b"\x55\x04\x03"]), &element(0x0c, &[text])]);
        element(0x30, &[&element(0x31, &[&attribute])])
    };
    let (empty, number) = (element(0x30, &[]), element(2, &[b"\x12\x34"]));
    let members = element(
        0x30,
        &[&number, &empty, &name(b"A Root"), &empty, &name(b"An Author"), &empty],
    );
    let certificate = element(0x30, &[&members]);
    let sha256 = b"\x60\x86\x48\x01\x65\x03\x04\x02\x01";
    let info = element(
        0x30,
        &[&element(0x30, &[&element(6, &[sha256])]), &element(4, &[digest])],
    );
    let content = element(0xa0, &[&element(0x30, &[&empty, &info])]);
    let indirect = element(
        0x30,
        &[&element(6, &[b"\x2b\x06\x01\x04\x01\x82\x37\x02\x01\x04"]), &content],
    );
    let data = element(
        0x30,
        &[
            &element(2, &[b"\x01"]),
            &element(0x31, &[]),
            &indirect,
            &element(0xa0, &[&certificate]),
        ],
    );
    element(
        0x30,
        &[
            &element(6, &[b"\x2a\x86\x48\x86\xf7\x0d\x01\x07\x02"]),
            &element(0xa0, &[&data]),
        ],
    )
}

#[test]
fn check_sum_and_overlay() -> Result<(), Error> {
    let mut file = image(&[]);
    file[0x98] = 7;
    file.extend_from_slice(b"\x01\x02\x03");
    // the 16-bit words with each carry added again, the field as 0, and the length
    let mut words = file.clone();
    words[0x98] = 0;
    words.push(0);
    let sum = words.chunks(2).fold(0_u32, |sum, word| {
        let sum = sum + u32::from(word[0]) + 256 * u32::from(word[1]);
        (sum & 0xffff) + (sum >> 16)
    });
    let trust = Trust::new(&file)?;
    assert_eq!(
        (trust.check_sum().written, trust.check_sum().computed),
        (7, sum + file.len() as u32)
    );
    assert_eq!((trust.overlay().offset, trust.overlay().size), (END as u64, 3));
    assert_eq!(Image::new(&file)?.trust().check_sum(), trust.check_sum());
    assert_eq!(Trust::new(&file[..END])?.overlay().size, 0);
    Ok(())
}

#[test]
fn signatures_and_their_certificates() -> Result<(), Error> {
    let unsigned = image(&entry(2, &signature(&[0; 32])));
    let own = Trust::new(&unsigned)?.digest(DigestAlgorithm::Sha256).unwrap();
    assert_eq!(own.as_bytes().len(), 32);
    for (digest, fits) in [(own.as_bytes(), true), (&[0; 32], false)] {
        let file = image(&[entry(1, b"X"), entry(2, &signature(digest)), entry(2, b"")].concat());
        // the table is longer, and left out of the digest
        let trust = Trust::new(&file)?;
        assert_eq!(trust.digest(DigestAlgorithm::Sha256), Some(own));
        let certificates = trust.certificates()?;
        let kinds: Vec<_> = certificates.iter().map(|it| (it.kind, it.revision)).collect();
        assert_eq!(kinds, [(1, 0x200), (2, 0x200), (2, 0x200)]);
        assert_eq!((certificates[0].offset, certificates[0].length), (END as u64, 9));
        assert_eq!(certificates[0].bytes, b"X");
        let signatures = trust.signatures()?;
        assert_eq!((signatures[0].digest, signatures[0].fits), (digest, Some(fits)));
        assert_eq!(signatures[0].algorithm, Some(DigestAlgorithm::Sha256));
        assert_eq!(signatures[0].bytes, certificates[1].bytes);
        assert_eq!(
            (signatures[1].algorithm, signatures[1].fits, signatures[1].digest),
            (None, None, &[][..])
        );
        let signers = signatures[0].signers()?;
        assert_eq!(
            (signers[0].serial, signers[0].issuer_name),
            (&b"\x12\x34"[..], &b"A Root"[..])
        );
        assert_eq!((signers[0].subject_name, signers.len()), (&b"An Author"[..], 1));
        assert!(signers[0].subject.ends_with(b"An Author") && signers[0].issuer.ends_with(b"A Root"));
        assert_eq!(signatures[1].signers()?, []);
    }
    Ok(())
}

#[test]
fn digests() -> Result<(), Error> {
    let file = image(&[]);
    let trust = Trust::new(&file)?;
    let len = |algorithm| trust.digest(algorithm).unwrap().as_bytes().len();
    assert_eq!(
        [
            DigestAlgorithm::Sha1,
            DigestAlgorithm::Sha256,
            DigestAlgorithm::Sha384,
            DigestAlgorithm::Sha512
        ]
        .map(len),
        [20, 32, 48, 64]
    );
    // a table that passes the file
    let mut past = image(&entry(2, b""));
    past[0xdc] += 1;
    assert_eq!(Trust::new(&past)?.digest(DigestAlgorithm::Sha256), None);
    // and one with a byte behind it
    past.push(0);
    assert!(Trust::new(&past)?.digest(DigestAlgorithm::Sha256).is_some());
    past.push(0);
    assert_eq!(Trust::new(&past)?.digest(DigestAlgorithm::Sha256), None);
    Ok(())
}

#[test]
fn rich_header() -> Result<(), Error> {
    // the signature at 0x60, and before it a header of one pair with the key 0x55555555
    let mut file = vec![0; 0x40];
    let mut words = vec![0x536e_6144_u32, 0, 0, 0, 0x0105_6b14, 13];
    words.iter_mut().for_each(|word| *word ^= 0x5555_5555);
    words.extend([0x6863_6952, 0x5555_5555]);
    file.extend(words.iter().flat_map(|word| word.to_le_bytes()));
    file.extend_from_slice(&image(&[])[0x40..]);
    file[..2].copy_from_slice(b"MZ");
    file[0x3c] = 0x60;
    let end = file.len() as u32;
    file[0xb4..0xb8].copy_from_slice(&end.to_le_bytes());
    let rich = Trust::new(&file)?.rich()?.unwrap();
    let pair = RichPair {
        product: 0x105,
        build: 0x6b14,
        count: 13,
    };
    assert_eq!(
        (rich.offset, rich.key, &rich.pairs[..]),
        (0x40, 0x5555_5555, &[pair][..])
    );
    assert_ne!(rich.computed, rich.key);
    file[0x40] ^= 1;
    assert_eq!(Trust::new(&file)?.rich()?, None);
    let found = Trust::new(&file)?.findings()?;
    assert_eq!(
        (found[0].number, found[0].place, found.len()),
        (241, Place::File(0x58), 1)
    );
    assert_eq!(Image::new(&file)?.findings()?, found);
    Ok(())
}

#[test]
fn a_file_that_is_refused() -> Result<(), Error> {
    // a section whose raw data pass the file, which is fault 13
    let mut file = image(&[]);
    file.resize(END + 40, 0);
    file[0x46] = 1;
    file[0x94..0x96].copy_from_slice(&(END as u16 + 40).to_le_bytes());
    file[END + 8..END + 24].copy_from_slice(b"\0\x10\0\0\0\x10\0\0\0\x10\0\0\0\x10\0\0");
    assert!(matches!(Image::new(&file), Err(Error::Fault(fault)) if fault.number == 13));
    let trust = Trust::new(&file)?;
    assert_eq!((trust.overlay().offset, trust.overlay().size), (0x2000, 0));
    assert!(trust.digest(DigestAlgorithm::Sha1).is_none() && trust.file().len() == file.len());
    assert_eq!((trust.certificates()?, trust.findings()?), (vec![], vec![]));
    assert!(matches!(Trust::new(&file[..63]), Err(Error::Fault(fault)) if fault.number == 2));
    Ok(())
}

#[test]
fn import_hash() -> Result<(), Error> {
    // the hashes are pefile's
    let v1: &[u8] = include_bytes!("../../../../crates/test_cases/data/v1.dll");
    let vd: &[u8] = include_bytes!("../../../../crates/test_cases/data/vd.dll");
    let hash = 0xf0ae_3062_6674_b4e4_8c10_5b7e_bf69_bd29_u128.to_be_bytes();
    assert_eq!(Trust::new(v1)?.import_hash()?, None);
    assert_eq!(Image::new(vd)?.trust().import_hash()?, Some(hash));
    let mut past = vd.to_vec();
    past[0xd0..0xd4].copy_from_slice(&[0xf0, 0xff, 0xff, 0x7f]);
    assert!(matches!(Trust::new(&past)?.import_hash(), Err(Error::Fault(fault)) if fault.number == 24));
    Ok(())
}

#[test]
fn what_an_overlay_begins_with() -> Result<(), Error> {
    let file = image(&[]);
    assert_eq!(Trust::new(&file)?.overlay().kind, petool_sys::PETOOL_OVERLAY_NONE);
    let zip = [&file[..], b"PK\x03\x04"].concat();
    assert_eq!(Trust::new(&zip)?.overlay().kind, petool_sys::PETOOL_OVERLAY_ZIP);
    Ok(())
}
