//! Objects. The values are those of o1.obj and two.obj, made by hand.

use petool::{Fault, Object, ObjectHeader, Place, Relocation, SectionHeader};

const O1: &[u8] = include_bytes!("../../../../crates/test_cases/data/o1.obj");
const TWO: &[u8] = include_bytes!("../../../../crates/test_cases/data/two.obj");

#[test]
fn an_object_is_judged_once() {
    let fault = Fault {
        number: 61,
        image: 0,
        place: Place::File(19),
    };
    assert_eq!(Object::new(&O1[..19]).unwrap_err(), fault);
    assert_eq!(Object::new(&TWO[..99]).unwrap_err().number, 63);
}

#[test]
fn headers_have_every_field_of_the_file() {
    let object = Object::new(O1).unwrap();
    let header = ObjectHeader {
        machine: 0x8664,
        number_of_sections: 1,
        time_date_stamp: 0,
        pointer_to_symbol_table: 76,
        number_of_symbols: 5,
        size_of_optional_header: 0,
        characteristics: 0,
    };
    let section = SectionHeader {
        name: *b"/4\0\0\0\0\0\0",
        virtual_size: 0,
        virtual_address: 0,
        size_of_raw_data: 6,
        pointer_to_raw_data: 60,
        pointer_to_relocations: 66,
        pointer_to_linenumbers: 0,
        number_of_relocations: 1,
        number_of_linenumbers: 0,
        characteristics: 0x6000_0020,
    };
    assert_eq!(
        (object.header(), object.section_headers()),
        (Ok(header), Ok(vec![section]))
    );
    let other = Object::new(TWO).unwrap();
    let sizes: Vec<u32> = other
        .section_headers()
        .unwrap()
        .iter()
        .map(|it| it.size_of_raw_data)
        .collect();
    assert_eq!((other.header().unwrap().machine, sizes), (0x14c, vec![0x1234_5678, 0]));
}

#[test]
fn sections_have_the_values_of_the_file() {
    let sections = Object::new(O1).unwrap().sections().unwrap();
    assert_eq!((sections.len(), sections[0].name), (1, &b".text$long"[..]));
    assert_eq!(sections[0].bytes, &O1[0x3c..0x42]);
    assert_eq!(sections[0].bytes, b"\xe8\0\0\0\0\xc3");
    assert_eq!(
        (sections[0].characteristics, sections[0].relocation_count),
        (0x6000_0020, 1)
    );
    let sections = Object::new(TWO).unwrap().sections().unwrap();
    assert_eq!((sections[0].name, sections[1].name), (&b".bss"[..], &b".data"[..]));
    assert_eq!((sections[0].bytes, sections[0].absent_size), (&[][..], 0x1234_5678));
    assert_eq!((sections[1].absent_size, sections[1].relocation_count), (0, 0));
}

#[test]
fn relocations_have_the_values_of_the_file() {
    let object = Object::new(O1).unwrap();
    let expected = vec![Relocation {
        address: 1,
        symbol: 3,
        kind: 4,
    }];
    assert_eq!(
        (object.relocations(0), object.relocations(1)),
        (Ok(Some(expected)), Ok(None))
    );
    assert_eq!(Object::new(TWO).unwrap().relocations(0), Ok(Some(vec![])));
}

/// An object of sections with these counts of relocations. A relocation's address is its index among those of all.
fn object_with(counts: &[u16]) -> Vec<u8> {
    let all: usize = counts.iter().map(|count| usize::from(*count)).sum();
    let mut at = 20 + 40 * counts.len();
    let mut file = vec![0x64, 0x86];
    file.extend((counts.len() as u16).to_le_bytes());
    file.extend([0; 4]);
    file.extend(((at + 10 * all) as u32).to_le_bytes());
    file.extend([1, 0, 0, 0, 0, 0, 0, 0]);
    for count in counts {
        file.extend([b'.', b'a', 0, 0, 0, 0, 0, 0]);
        file.extend([0; 16]);
        file.extend((at as u32).to_le_bytes());
        file.extend([0; 4]);
        file.extend(count.to_le_bytes());
        file.extend([0, 0, 0x20, 0, 0, 0x60]);
        at += 10 * usize::from(*count);
    }
    for address in 0..all as u32 {
        file.extend(address.to_le_bytes());
        file.extend([0, 0, 0, 0, 4, 0]);
    }
    file.extend(*b"x\0\0\0\0\0\0\0\0\0\0\0\0\0\0\0\x02\0");
    file.extend([4, 0, 0, 0]);
    file
}

fn addresses(object: &Object, section: usize) -> Vec<u32> {
    let relocations = object.relocations(section).unwrap().unwrap();
    relocations.iter().map(|it| it.address).collect()
}

#[test]
fn relocations_are_those_of_their_section_in_any_order() {
    let counts = [3000, 0, 1000, 2000, 5000, 0, 1, 65534, 1, 0];
    let file = object_with(&counts);
    let object = Object::new(&file).unwrap();
    let mut start = 0;
    let wanted: Vec<Vec<u32>> = counts
        .iter()
        .map(|count| {
            start += u32::from(*count);
            (start - u32::from(*count)..start).collect()
        })
        .collect();
    let there_and_back = (0..counts.len()).chain((0..counts.len()).rev());
    for section in there_and_back.chain([9, 3, 0, 8, 2, 2, 5]) {
        assert_eq!(addresses(&object, section), wanted[section]);
        assert_eq!(addresses(&object.clone(), section), wanted[section]);
    }
    assert_eq!(object.relocations(counts.len()), Ok(None));
    assert_eq!(object.relocations(usize::MAX), Ok(None));
}

#[test]
fn an_object_without_sections_has_no_relocations() {
    let file = object_with(&[]);
    assert_eq!(Object::new(&file).unwrap().relocations(0), Ok(None));
}

#[test]
fn symbols_have_the_values_of_the_file() {
    let symbols = Object::new(O1).unwrap().symbols().unwrap();
    let (file, inner, outer, last) = match &symbols[..] {
        [file, inner, outer, last] => (file, inner, outer, last),
        _ => panic!("{symbols:?}"),
    };
    assert_eq!(
        (file.name, file.index, file.section_number, file.class),
        (&b".file"[..], 0, 0xfffe, 103)
    );
    assert_eq!((file.aux.len(), &file.aux[..4]), (18, &b"a.c\0"[..]));
    assert_eq!(
        (inner.name, inner.index, inner.section_number),
        (&b"abcdefgh"[..], 2, 1)
    );
    assert_eq!((inner.kind, inner.class, inner.value, inner.aux), (0x20, 2, 0, &[][..]));
    assert_eq!(
        (outer.name, outer.index, outer.section_number),
        (&b"abcdefghi"[..], 3, 0)
    );
    assert_eq!(
        (last.name, last.value, last.section_number, last.class),
        (&[][..], 7, 0xffff, 3)
    );
}
