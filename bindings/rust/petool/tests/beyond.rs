//! Tables beyond the profile. The files are v1.dll with another section, written byte by byte from the format: it is at RVA
//! 0x1000 and at 0x200 of the file, and SizeOfImage is 0x3000.

use petool::{
    name_of, BoundImport, ClrField, DebugEntry, Error, Function, Image, Import, Key, LoadField, Named, PdbSignature,
    Place, Symbol,
};

const V1: &[u8] = include_bytes!("../../../../crates/test_cases/data/v1.dll");

const AMD64: u16 = 0x8664;
const ARM64: u16 = 0xaa64;

/// The file with these bytes in its section, and a directory of so many bytes at RVA 0x1000.
fn with_section(index: usize, size: u32, machine: u16, section: &[u8]) -> Vec<u8> {
    let mut file = V1[..0x200].to_vec();
    let len = (section.len() as u32).to_le_bytes();
    let directory = 0xb8 + 8 * index;
    file[0x44..0x46].copy_from_slice(&machine.to_le_bytes());
    file[0x90..0x94].copy_from_slice(&0x3000_u32.to_le_bytes());
    file[directory..directory + 4].copy_from_slice(&0x1000_u32.to_le_bytes());
    file[directory + 4..directory + 8].copy_from_slice(&size.to_le_bytes());
    file[0x140..0x144].copy_from_slice(&len);
    file[0x148..0x14c].copy_from_slice(&len);
    file.extend_from_slice(section);
    file
}

fn numbers(values: &[u32]) -> Vec<u8> {
    values.iter().flat_map(|value| value.to_le_bytes()).collect()
}

/// An entry of the debug directory with a record of a PDB file right after it.
fn naming(record: &[u8]) -> Vec<u8> {
    let entry = numbers(&[
        0x14131211,
        0x24232221,
        0x34333231,
        2,
        record.len() as u32,
        0x101c,
        0x21c,
    ]);
    with_section(6, 28, 0x14c, &[&entry, record].concat())
}

#[test]
fn debug_data() -> Result<(), Error> {
    let file = naming(b"RSDS\xa0\xa1\xa2\xa3\xa4\xa5\xa6\xa7\xa8\xa9\xaa\xab\xac\xad\xae\xaf\x1a\0\0\0a.pdb\0");
    let image = Image::new(&file)?;
    let entry = DebugEntry {
        characteristics: 0x14131211,
        time_date_stamp: 0x24232221,
        major_version: 0x3231,
        minor_version: 0x3433,
        kind: 2,
        size_of_data: 30,
        address_of_raw_data: 0x101c,
        pointer_to_raw_data: 0x21c,
    };
    assert_eq!(image.debug()?, [entry]);
    let pdb = image.pdb().unwrap();
    let guid = std::array::from_fn(|k| 0xa0 + k as u8);
    assert_eq!(
        (pdb.path, pdb.signature, pdb.age, pdb.offset),
        (&b"a.pdb"[..], PdbSignature::Guid(guid), 0x1a, 0)
    );
    Ok(())
}

#[test]
fn an_old_pdb_file() -> Result<(), Error> {
    let file = naming(b"NB10ABCD\xd1\x6f\x0b\x3c\x03\0\0\0old.pdb\0");
    let pdb = Image::new(&file)?.pdb().unwrap();
    assert_eq!((pdb.path, pdb.age, pdb.offset), (&b"old.pdb"[..], 3, 0x44434241));
    assert_eq!(pdb.signature, PdbSignature::TimeDateStamp(0x3c0b_6fd1));
    assert!(pdb.path.as_ptr() == file[0x200 + 28 + 16..].as_ptr());
    assert_eq!(Image::new(&naming(b"NB10"))?.pdb(), None);
    Ok(())
}

#[test]
fn functions() -> Result<(), Error> {
    let table = numbers(&[0x1000, 0x1008, 0x1010, 0x1009]);
    let row = |begin, end, unwind, kind| Function {
        begin,
        end,
        unwind,
        kind,
    };
    let of = |machine, size| {
        Image::new(&with_section(3, size, machine, &table))?
            .functions()
            .map_err(Error::from)
    };
    assert_eq!(of(AMD64, 12)?, [row(0x1000, 0x1008, 0x1010, 0)]);
    assert_eq!(of(ARM64, 16)?, [row(0x1000, 0, 0x1008, 1), row(0x1010, 0, 0x1009, 1)]);
    assert_eq!(of(0x14c, 16)?, []);
    Ok(())
}

#[test]
fn tls() -> Result<(), Error> {
    let fields = [
        0x1000_1001,
        0x1000_1002,
        0x1000_1003,
        0x1000_1018,
        0x4443_4241,
        0x5453_5251,
    ];
    let callbacks = [0x1000_1004, 0x1000_1008, 0];
    let file = with_section(9, 24, 0x14c, &numbers(&[&fields[..], &callbacks].concat()));
    let tls = Image::new(&file)?.tls()?.unwrap();
    let it = tls.directory;
    let addresses = [
        it.start_address_of_raw_data,
        it.end_address_of_raw_data,
        it.address_of_index,
        it.address_of_callbacks,
    ];
    assert_eq!(addresses, [0x1000_1001, 0x1000_1002, 0x1000_1003, 0x1000_1018]);
    assert_eq!(
        (it.size_of_zero_fill, it.characteristics, it.is_whole),
        (0x4443_4241, 0x5453_5251, true)
    );
    assert_eq!(tls.callbacks, [0x1000_1004, 0x1000_1008]);
    Ok(())
}

#[test]
fn structures_by_their_fields() -> Result<(), Error> {
    let mut load = [0; 64];
    load[0] = 64;
    load[60..].copy_from_slice(&0x5453_5251_u32.to_le_bytes());
    let file = with_section(10, 64, 0x14c, &load);
    let load = Image::new(&file)?.load_configuration()?.unwrap();
    assert_eq!(load.get(LoadField::Size), Some(64));
    assert_eq!(load.get(LoadField::SecurityCookie), Some(0x5453_5251));
    assert_eq!(load.get(LoadField::SeHandlerTable), None);
    assert_eq!(load.get(LoadField::GuardMemcpyFunctionPointer), None);
    assert_eq!(LoadField::GuardMemcpyFunctionPointer as usize, 51);
    for (field, name) in [
        (LoadField::SecurityCookie, "SecurityCookie"),
        (LoadField::GuardFlags, "GuardFlags"),
    ] {
        assert_eq!(name_of(Named::LoadField, field as u32), Some(name));
    }

    let mut clr = [0; 72];
    clr[0] = 72;
    clr[4..8].copy_from_slice(&[2, 0, 5, 0]);
    clr[68] = 9;
    let file = with_section(14, 72, 0x14c, &clr);
    let clr = Image::new(&file)?.clr()?.unwrap();
    assert_eq!(
        (
            clr.get(ClrField::MajorRuntimeVersion),
            clr.get(ClrField::MinorRuntimeVersion)
        ),
        (Some(2), Some(5))
    );
    assert_eq!(
        (clr.get(ClrField::Cb), clr.get(ClrField::ManagedNativeHeaderSize)),
        (Some(72), Some(9))
    );
    Ok(())
}

#[test]
fn bound_imports() -> Result<(), Error> {
    let table = [
        &numbers(&[0x14131211, 0x0001_0018, 0x24232221, 0x3231_ffff, 0, 0])[..],
        b"a.dll\0",
    ]
    .concat();
    let file = with_section(11, 24, 0x14c, &table);
    let row = |module, time_date_stamp, forwarder_count| BoundImport {
        module,
        time_date_stamp,
        forwarder_count,
    };
    let wanted = [row(Some(&b"a.dll"[..]), 0x14131211, 1), row(None, 0x24232221, 0x3231)];
    assert_eq!(Image::new(&file)?.bound_imports()?, wanted);
    Ok(())
}

#[test]
fn delay_imports() -> Result<(), Error> {
    // a descriptor and one of zeros, the name of its module at 0x1040, its name table at 0x1050, its address table at 0x1060, and a name
    // with its hint at 0x1070
    let mut table = numbers(&[1, 0x1040, 0x5555, 0x1060, 0x1050, 0x6666, 0x7777, 0x8888]);
    table.resize(0x40, 0);
    table.extend_from_slice(b"a.dll\0");
    table.resize(0x50, 0);
    table.extend(numbers(&[0x8000_0507, 0x1070, 0]));
    table.resize(0x70, 0);
    table.extend_from_slice(b"\xff\xffSleep\0");
    let file = with_section(13, 64, 0x14c, &table);
    let row = |key, slot| Import {
        module: &b"a.dll"[..],
        key,
        slot,
    };
    let wanted = [row(Key::Ordinal(0x507), 0x1060), row(Key::Name(&b"Sleep"[..]), 0x1064)];
    assert_eq!(Image::new(&file)?.delay_imports()?, wanted);
    Ok(())
}

#[test]
fn symbols() -> Result<(), Error> {
    // a record whose auxiliary record is after it, and the length of a string table without a string
    let mut table = b"eightlet\x11\x12\x13\x14\x21\x22\x31\x32\x41\x01".to_vec();
    table.extend(0x50..0x62);
    table.extend(numbers(&[4]));
    let mut file = with_section(15, 0, 0x14c, &table);
    file[0x4c..0x54].copy_from_slice(&numbers(&[0x200, 2]));
    let aux: Vec<u8> = (0x50..0x62).collect();
    let wanted = [Symbol {
        name: &b"eightlet"[..],
        aux: &aux,
        index: 0,
        value: 0x14131211,
        section_number: 0x2221,
        kind: 0x3231,
        class: 0x41,
    }];
    let image = Image::new(&file)?;
    assert_eq!(image.symbols()?, wanted);
    // its section is none of the image's
    let found = image.findings()?;
    assert_eq!(
        found.iter().map(|it| (it.number, it.place)).collect::<Vec<_>>(),
        [(263, Place::File(0x200))]
    );
    Ok(())
}

#[test]
fn findings() -> Result<(), Error> {
    // the first function ends before it begins, and the second begins before it
    let file = with_section(
        3,
        25,
        AMD64,
        &numbers(&[0x1001, 0x1000, 0x1000, 0x1000, 0x1000, 0x1000]),
    );
    let found = Image::new(&file)?.findings()?;
    let shown: Vec<_> = found.iter().map(|it| (it.number, it.place)).collect();
    let (table, second) = (Place::Rva(0x1000), Place::Rva(0x100c));
    assert_eq!(shown, [(111, table), (112, table), (113, table), (116, second)]);
    assert!(found[3].to_string().contains(" at RVA 0x100c: "));
    Ok(())
}

#[test]
fn an_image_without_these_tables() -> Result<(), Error> {
    let image = Image::new(V1)?;
    assert_eq!(
        (image.debug()?, image.pdb(), image.functions()?, image.findings()?),
        (vec![], None, vec![], vec![])
    );
    assert_eq!(
        (
            image.tls()?,
            image.load_configuration()?,
            image.clr()?,
            image.bound_imports()?
        ),
        (None, None, None, vec![])
    );
    assert_eq!((image.delay_imports()?, image.symbols()?), (vec![], vec![]));
    Ok(())
}
