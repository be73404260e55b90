//! Objects of either form. The values are those of the objects below, and of o1.obj and two.obj, all made by hand.

use petool::{
    BigObjectHeader, EitherHeader, EitherObject, Fault, Object, ObjectSection, Place, Relocation, SectionHeader,
};

const O1: &[u8] = include_bytes!("../../../../crates/test_cases/data/o1.obj");
const TWO: &[u8] = include_bytes!("../../../../crates/test_cases/data/two.obj");

/// The header of a big object up to NumberOfSections: Version 2, for AMD64.
const HEADER: [u8; 44] = [
    // Sig1, Sig2, Version, Machine, TimeDateStamp, ClassID
    0, 0, 0xff, 0xff, 2, 0, 0x64, 0x86, 0x01, 0x02, 0x03, 0x04, 0xc7, 0xa1, 0xba, 0xd1, 0xee, 0xba, 0xa9, 0x4b, 0xaf,
    0x20, 0xfa, 0xf6, 0x6a, 0xa4, 0xdc, 0xb8, // SizeOfData, Flags, MetaDataSize, MetaDataOffset
    0x11, 0x12, 0x13, 0x14, 0x15, 0x16, 0x17, 0x18, 0x19, 0x1a, 0x1b, 0x1c, 0x21, 0x22, 0x23, 0x24,
];

/// The header with the counts and the place of the symbol table.
fn header(sections: u32, symbols_at: u32, symbols: u32) -> Vec<u8> {
    let mut file = HEADER.to_vec();
    for number in [sections, symbols_at, symbols] {
        file.extend(number.to_le_bytes());
    }
    file
}

/// A section of code with a byte at 96 and a relocation at 97, and a function in it with an auxiliary record of 20 bytes.
fn one() -> Vec<u8> {
    let mut file = header(1, 107, 2);
    file.extend(*b".text\0\0\0");
    for number in [0, 0, 1, 96, 97, 0, 1, 0x6000_0020_u32] {
        file.extend(number.to_le_bytes());
    }
    file.extend([0xc3, 9, 0, 0, 0, 1, 0, 0, 0, 4, 0]);
    file.extend(*b"f\0\0\0\0\0\0\0\x44\x33\x22\x11\x01\0\0\0\x20\0\x02\x01");
    file.extend(1..=20);
    file.extend([4, 0, 0, 0]);
    file
}

/// The same with other bytes at an offset.
fn one_with(at: usize, bytes: &[u8]) -> Vec<u8> {
    let mut file = one();
    file[at..at + bytes.len()].copy_from_slice(bytes);
    file
}

#[test]
fn it_says_which_form_it_has() {
    assert!(EitherObject::new(&one()).unwrap().is_big());
    assert!(!EitherObject::new(O1).unwrap().is_big());
    assert!(!EitherObject::new(TWO).unwrap().clone().is_big());
}

#[test]
fn a_big_object_has_the_values_of_the_file() {
    let file = one();
    let object = EitherObject::new(&file).unwrap();
    let wanted = BigObjectHeader {
        version: 2,
        machine: 0x8664,
        time_date_stamp: 0x0403_0201,
        size_of_data: 0x1413_1211,
        flags: 0x1817_1615,
        meta_data_size: 0x1c1b_1a19,
        meta_data_offset: 0x2423_2221,
        number_of_sections: 1,
        pointer_to_symbol_table: 107,
        number_of_symbols: 2,
    };
    assert_eq!(object.header(), Ok(EitherHeader::Big(wanted)));
    let section = SectionHeader {
        name: *b".text\0\0\0",
        virtual_size: 0,
        virtual_address: 0,
        size_of_raw_data: 1,
        pointer_to_raw_data: 96,
        pointer_to_relocations: 97,
        pointer_to_linenumbers: 0,
        number_of_relocations: 1,
        number_of_linenumbers: 0,
        characteristics: 0x6000_0020,
    };
    assert_eq!(object.section_headers(), Ok(vec![section]));
    let section = ObjectSection {
        name: b".text",
        bytes: b"\xc3",
        absent_size: 0,
        virtual_size: 0,
        virtual_address: 0,
        characteristics: 0x6000_0020,
        relocation_count: 1,
    };
    assert_eq!(object.sections(), Ok(vec![section]));
    let relocation = Relocation {
        address: 9,
        symbol: 1,
        kind: 4,
    };
    assert_eq!(object.relocations(0), Ok(Some(vec![relocation])));
    assert_eq!(object.relocations(1), Ok(None));
    let symbols = object.symbols().unwrap();
    assert_eq!((symbols.len(), symbols[0].name, symbols[0].index), (1, &b"f"[..], 0));
    assert_eq!((symbols[0].value, symbols[0].section_number), (0x1122_3344, 1));
    assert_eq!((symbols[0].kind, symbols[0].class), (0x20, 2));
    assert_eq!(symbols[0].aux, (1..=20).collect::<Vec<u8>>());
}

#[test]
fn a_plain_object_has_the_values_that_the_calls_of_plain_ones_have() {
    for file in [O1, TWO] {
        let (plain, object) = (Object::new(file).unwrap(), EitherObject::new(file).unwrap());
        assert_eq!(object.header(), plain.header().map(EitherHeader::Plain));
        assert_eq!(object.section_headers(), plain.section_headers());
        assert_eq!(object.sections(), plain.sections());
        for section in 0..3 {
            assert_eq!(object.relocations(section), plain.relocations(section));
        }
    }
    let rows: Vec<_> = EitherObject::new(O1)
        .unwrap()
        .symbols()
        .unwrap()
        .iter()
        .map(|it| (it.name, it.aux.len(), it.index, it.section_number))
        .collect();
    let wanted: [(&[u8], usize, u32, u32); 4] = [
        (b".file", 18, 0, 0xffff_fffe),
        (b"abcdefgh", 0, 2, 1),
        (b"abcdefghi", 0, 3, 0),
        (b"", 0, 4, 0xffff_ffff),
    ];
    assert_eq!(rows, wanted);
}

#[test]
fn more_sections_than_16_bits_count() {
    const MANY: u32 = 70_000;
    let end = 56 + 40 * MANY;
    let mut file = header(MANY, end, 1);
    file.resize(end as usize, 0);
    file.extend(*b"f\0\0\0\0\0\0\0\0\0\0\0");
    file.extend(MANY.to_le_bytes());
    file.extend([0, 0, 2, 0, 4, 0, 0, 0]);
    let object = EitherObject::new(&file).unwrap();
    assert_eq!(object.symbols().unwrap()[0].section_number, MANY);
    assert_eq!(object.section_headers().unwrap().len(), MANY as usize);
    assert_eq!(object.sections().unwrap().len(), MANY as usize);
    assert_eq!(object.relocations(MANY as usize - 1), Ok(Some(vec![])));
    assert_eq!(object.relocations(MANY as usize), Ok(None));
}

#[test]
fn files_that_claim_too_much_are_refused() {
    let mut claim = header(0xffff_ffff, 0, 0);
    claim.resize(100, 0);
    let cases: [(u16, u64, Vec<u8>); 9] = [
        (61, 55, one()[..55].to_vec()),
        (62, 4, one_with(4, &[1])),
        (62, 12, one_with(12, &[0xc8])),
        (63, 44, claim),
        (68, 147, one_with(147, &[5])),
        (70, 107, one_with(126, &[2])),
        (71, 107, one_with(119, &[2])),
        (71, 107, one_with(119, &[1, 0, 0, 0x80])),
        (72, 97, one_with(101, &[2])),
    ];
    for (number, at, file) in cases {
        let fault = Fault {
            number,
            image: 0,
            place: Place::File(at),
        };
        assert_eq!(EitherObject::new(&file).unwrap_err(), fault);
    }
    assert_eq!(EitherObject::new(&O1[..19]).unwrap_err().number, 61);
    assert_eq!(Object::new(&one()).unwrap_err().number, 62);
}
