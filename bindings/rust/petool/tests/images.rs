//! One image, on its good path and refused. The values are those of the files, which were made by hand from the format:
//! vr.dll has another value in each field.

use petool::{Error, Fault, Headers, Image, Import, Key, OpenImage, OutOfMemory, Place, Target};

const V1: &[u8] = include_bytes!("../../../../crates/test_cases/data/v1.dll");
const V2: &[u8] = include_bytes!("../../../../crates/test_cases/data/v2.dll");
const VA: &[u8] = include_bytes!("../../../../crates/test_cases/data/va.dll");
const VB: &[u8] = include_bytes!("../../../../crates/test_cases/data/vb.dll");
const VR: &[u8] = include_bytes!("../../../../crates/test_cases/data/vr.dll");

const NAME_OF_M: Target<'static> = Target::Forward {
    module: b"m\x1f.\xff",
    key: Key::Name(b"n\"m\\"),
};
const ORDINAL_OF_O: Target<'static> = Target::Forward {
    module: b"\\o\x7f",
    key: Key::Ordinal(407),
};

fn refused(file: &[u8]) -> Fault {
    match Image::new(file) {
        Err(Error::Fault(fault)) => fault,
        other => panic!("{other:?}"),
    }
}

#[test]
fn an_image_is_judged_once() {
    assert!(Image::new(VR).is_ok());
    assert_eq!(
        refused(&[]),
        Fault {
            number: 2,
            image: 0,
            place: Place::File(0)
        }
    );
    // the header at 0x138 has 16 bytes from 0x200 on, and the file ends at 0x208
    assert_eq!(
        refused(&V1[..520]),
        Fault {
            number: 13,
            image: 0,
            place: Place::File(0x138)
        }
    );
}

#[test]
fn a_fault_is_told_in_words() {
    let words = "section header at 0x138: the section's raw data extends past the end of the file";
    assert_eq!(Image::new(&V1[..520]).unwrap_err().to_string(), words);
    let lines = [
        (
            34,
            Place::Rva(0x2000),
            "base relocation table at RVA 0x2000: the table extends past the end of the image",
        ),
        (
            44,
            Place::Address(0x2000_0001),
            "base 0x20000001: the base is not a multiple of 65,536",
        ),
        (41, Place::Item(256), "file 256: the set has more than 256 files"),
        (86, Place::File(10), "place at 0xa: no fault has this number"),
    ];
    for (number, place, line) in lines {
        assert_eq!(
            Fault {
                number,
                image: 0,
                place
            }
            .to_string(),
            line
        );
    }
    assert_eq!(Error::Memory.to_string(), "out of memory");
    assert_eq!(Error::from(OutOfMemory), Error::Memory);
}

#[test]
fn a_place_is_shown_as_the_program_prints_it() {
    assert_eq!(Place::File(0x138).to_string(), "file 0x00000138");
    assert_eq!(Place::Rva(0x2000).to_string(), "rva 0x00002000");
    assert_eq!(Place::Address(0x2000_0001).to_string(), "address 0x0000000020000001");
    assert_eq!(Place::Item(256).to_string(), "item 256");
}

#[test]
fn headers_have_the_values_of_the_file() {
    let image = Image::new(VR).unwrap();
    let headers = image.headers();
    assert_eq!(headers.image_base, 0x3e3d_3c3b_3a39_0000);
    assert_eq!(headers.size_of_stack_reserve, 0x605f_5e5d_5c5b_5a59);
    assert_eq!(headers.size_of_stack_commit, 0x6867_6665_6463_6261);
    assert_eq!(headers.size_of_heap_reserve, 0x706f_6e6d_6c6b_6a69);
    assert_eq!(headers.size_of_heap_commit, 0x7877_7675_7473_7271);
    assert_eq!((headers.pe_offset, headers.time_date_stamp), (0x40, 0x1413_1211));
    assert_eq!(
        (headers.pointer_to_symbol_table, headers.number_of_symbols),
        (0x1817_1615, 0x1c1b_1a19)
    );
    assert_eq!(
        (headers.size_of_code, headers.size_of_initialized_data),
        (0x2625_2423, 0x2a29_2827)
    );
    assert_eq!(
        (headers.size_of_uninitialized_data, headers.address_of_entry_point),
        (0x2e2d_2c2b, 0x3231_302f)
    );
    assert_eq!((headers.base_of_code, headers.base_of_data), (0x3635_3433, 0));
    assert_eq!((headers.section_alignment, headers.file_alignment), (0x1000, 0x200));
    assert_eq!(
        (headers.win32_version_value, headers.size_of_image),
        (0x504f_4e4d, 0x45678)
    );
    assert_eq!((headers.size_of_headers, headers.check_sum), (0x1e0, 0x5453_5251));
    assert_eq!(
        (headers.loader_flags, headers.number_of_rva_and_sizes),
        (0x7c7b_7a79, 0x807f_7e7d)
    );
    assert_eq!(
        (headers.magic, headers.machine, headers.number_of_sections),
        (0x20b, 0xaa64, 3)
    );
    assert_eq!(
        (headers.size_of_optional_header, headers.characteristics),
        (0xf0, 0x2022)
    );
    assert_eq!((headers.subsystem, headers.dll_characteristics), (0x5655, 0x5857));
    assert_eq!(
        (
            headers.major_operating_system_version,
            headers.minor_operating_system_version
        ),
        (0x4241, 0x4443)
    );
    assert_eq!(
        (headers.major_image_version, headers.minor_image_version),
        (0x4645, 0x4847)
    );
    assert_eq!(
        (headers.major_subsystem_version, headers.minor_subsystem_version),
        (0x4a49, 0x4c4b)
    );
    assert_eq!(
        (headers.major_linker_version, headers.minor_linker_version),
        (0x21, 0x22)
    );
    assert_eq!(
        (headers.directories[0].rva, headers.directories[0].size),
        (0x20000, 0xa0)
    );
    assert_eq!(
        (headers.directories[15].rva, headers.directories[15].size),
        (0xe4e3_e2e1, 0xe8e7_e6e5)
    );
    assert!(headers.is_wide());
}

#[test]
fn sections_have_the_values_of_the_file() {
    let image = Image::new(VR).unwrap();
    let (a, b, c) = match image.sections() {
        [a, b, c] => (a, b, c),
        _ => panic!("{:?}", image.sections()),
    };
    assert_eq!(
        (a.text(), b.text(), c.text()),
        (&b"\"a\\\x01"[..], &b"\x7f~ \x80\xff"[..], &b"eight\tby"[..])
    );
    assert_eq!(
        (a.rva, a.extent, a.file_size, a.characteristics),
        (0x20000, 0x2345, 0x1f0, 0x4000_0040)
    );
    assert_eq!(
        (b.rva, b.extent, b.file_size, b.characteristics),
        (0x30000, 0x1c8, 0x1c8, 0xe200_0060)
    );
    assert_eq!(
        (c.rva, c.extent, c.file_size, c.characteristics),
        (0x40000, 0x3456, 0, 0xc000_0080)
    );
    assert_eq!((a.pointer_to_raw_data, b.pointer_to_raw_data), (0x200, 0x400));
    assert_eq!(image.headers().section_at(0x301c7), Some(b));
    assert_eq!(image.headers().section_at(0x301c8), None);
}

#[test]
fn headers_are_read_also_where_tables_have_faults() {
    assert_eq!(Headers::read(V1).unwrap().image_base, 0x1000_0000);
    assert_eq!(Headers::read(&VR[..63]).unwrap_err(), Error::Fault(refused(&VR[..63])));
    // a base relocation directory past the image: fault 34
    let mut file = V1.to_vec();
    file[0x40 + 24 + 96 + 40..][..8].copy_from_slice(&[0, 0x30, 0, 0, 8, 0, 0, 0]);
    assert_eq!(
        refused(&file),
        Fault {
            number: 34,
            image: 0,
            place: Place::Rva(0x3000)
        }
    );
    assert_eq!(Headers::read(&file).unwrap().sections().len(), 1);
}

#[test]
fn bytes_and_texts_are_those_of_the_laid_out_image() {
    let image = Image::new(V1).unwrap();
    let mut bytes = [0x5a; 18];
    assert_eq!(image.read(0x1000, &mut bytes[..17]), Some(()));
    assert_eq!(bytes, [0, 1, 2, 3, 4, 5, 6, 7, 8, 9, 10, 11, 12, 13, 14, 15, 0, 0x5a]);
    let mut two = [0x5a; 2];
    assert_eq!(image.read(0x2fff, &mut two), None);
    assert_eq!(two, [0x5a; 2]);
    assert_eq!(image.read(0x2fff, &mut two[..1]), Some(()));
    assert_eq!(
        (image.read(0x3000, &mut []), image.read(0x3001, &mut [])),
        (Some(()), None)
    );
    assert_eq!((image.text(0), image.text(0x1001)), (Some(&b"MZ"[..]), None));
    assert_eq!(
        (image.locate(0x100f), image.locate(0x1010), image.locate(0x3000)),
        (Some(0x20f), None, None)
    );
}

#[test]
fn exports_have_the_values_of_the_file() {
    let tables = Image::new(VR).unwrap().tables().unwrap();
    let exports: Vec<_> = tables.exports().collect();
    let expected = [
        (65534, Target::Rva(0x43210)),
        (65536, NAME_OF_M),
        (65537, ORDINAL_OF_O),
        (65538, Target::Rva(0x30123)),
        (65539, Target::Rva(0x1fedc)),
    ];
    assert_eq!((tables.exports().len(), &exports[..]), (5, &expected[..]));
    let names: Vec<_> = tables.names().collect();
    let expected: [(&[u8], _); 3] = [
        (b"\"q\\", Target::Rva(0x30123)),
        (b"\x7f\x80 ", NAME_OF_M),
        (b"plain", ORDINAL_OF_O),
    ];
    assert_eq!((tables.names().len(), &names[..]), (3, &expected[..]));
}

#[test]
fn an_export_is_found_by_name_and_by_ordinal() {
    let (a, b, r) = (
        Image::new(VA).unwrap(),
        Image::new(VB).unwrap(),
        Image::new(VR).unwrap(),
    );
    assert_eq!(b.export_by_ordinal(7), Some(Target::Rva(0x1010)));
    assert_eq!(
        (b.export_by_ordinal(6), b.export_by_ordinal(0x1_0000_0007)),
        (None, None)
    );
    assert_eq!(
        (b.export_by_name(b"g"), b.export_by_name(b"h")),
        (Some(Target::Rva(0x1010)), None)
    );
    assert_eq!(
        (b.export_by_name(b""), r.export_by_name(b"plain")),
        (None, Some(ORDINAL_OF_O))
    );
    assert_eq!(
        a.export_by_name(b"f"),
        Some(Target::Forward {
            module: b"b",
            key: Key::Ordinal(7)
        })
    );
}

#[test]
fn imports_and_base_relocations_have_the_values_of_the_file() {
    let tables = Image::new(VR).unwrap().tables().unwrap();
    let (module, other): (&[u8], &[u8]) = (b"A\"b.DLL", b"c\\\x80");
    let imports: Vec<_> = tables.imports().collect();
    let expected = [
        Import {
            module,
            key: Key::Name(b"\x7fname"),
            slot: 0x40010,
        },
        Import {
            module,
            key: Key::Ordinal(777),
            slot: 0x40018,
        },
        Import {
            module,
            key: Key::Name(b"g\"\\\x01"),
            slot: 0x40020,
        },
        Import {
            module: other,
            key: Key::Ordinal(65534),
            slot: 0x30070,
        },
        Import {
            module: other,
            key: Key::Name(b"\xff"),
            slot: 0x30078,
        },
    ];
    assert_eq!((tables.imports().len(), &imports[..]), (5, &expected[..]));
    let fixups: Vec<_> = tables.fixups().map(|fixup| (fixup.field, fixup.kind)).collect();
    assert_eq!(fixups, [(0x21234, 3), (0x21008, 10), (0x41fff, 10), (0x41010, 3)]);
    assert_eq!(tables.fixups().len(), 4);
}

#[test]
fn names_are_parts_of_the_file_and_outlive_image_and_tables() {
    let name = {
        let tables = Image::new(VB).unwrap().tables().unwrap();
        let (name, _) = tables.names().next().unwrap();
        name
    };
    assert_eq!(name, b"g");
    assert!(VB.as_ptr_range().contains(&name.as_ptr()));
}

#[test]
fn a_file_is_rebased() {
    let image = Image::new(V2).unwrap();
    let file = image.rebased(0x2000_0000).unwrap();
    let moved = Image::new(&file).unwrap();
    assert_eq!(
        (moved.headers().image_base, moved.headers().check_sum),
        (0x2000_0000, 0)
    );
    // it held the address 0x10001008
    let mut field = [0; 4];
    moved.read(0x1008, &mut field).unwrap();
    assert_eq!(field, [0x08, 0x10, 0x00, 0x20]);
    let fault = Fault {
        number: 44,
        image: 0,
        place: Place::Address(0x2000_0001),
    };
    assert_eq!(image.rebased(0x2000_0001), Err(Error::Fault(fault)));
    let mut open = OpenImage::new(V2).unwrap();
    assert_eq!(open.rebased(0x2000_0000).unwrap(), file);
    assert_eq!(open.rebased(0x2000_0001), Err(Error::Fault(fault)));
}

#[test]
fn an_image_and_its_tables_go_to_any_number_of_threads() {
    let (image, tables) = (Image::new(VR).unwrap(), Image::new(VR).unwrap().tables().unwrap());
    std::thread::scope(|threads| {
        for _ in 0..4 {
            threads.spawn(|| {
                for _ in 0..200 {
                    assert_eq!(image.export_by_name(b"plain"), Some(ORDINAL_OF_O));
                    assert_eq!(tables.names().nth(2), Some((&b"plain"[..], ORDINAL_OF_O)));
                }
            });
        }
    });
}

#[test]
fn an_open_image_answers_as_an_image_does() {
    for file in [V1, V2, VA, VB, VR] {
        let image = Image::new(file).unwrap();
        let mut open = OpenImage::new(file).unwrap();
        assert_eq!(open.file(), file);
        for (name, target) in image.tables().unwrap().names() {
            assert_eq!(open.export_by_name(name), Some(target));
            assert_eq!(open.export_by_name(&name[1..]), image.export_by_name(&name[1..]));
        }
        for ordinal in 0..10 {
            assert_eq!(open.export_by_ordinal(ordinal), image.export_by_ordinal(ordinal));
        }
        for rva in [0, 0x1ff, 0x1000, 0x2fff, 0x30123, 0x41000, u32::MAX] {
            let (mut one, mut other) = ([9; 4], [9; 4]);
            assert_eq!(open.read(rva, &mut one), image.read(rva, &mut other));
            assert_eq!((one, open.text(rva)), (other, image.text(rva)));
            assert_eq!(open.locate(rva), image.locate(rva));
        }
    }
    assert_eq!(OpenImage::new(VR).unwrap().export_by_name(b"plain"), Some(ORDINAL_OF_O));
}

#[test]
fn an_open_image_is_refused_as_an_image_is() {
    for len in (0..V1.len()).step_by(5) {
        assert_eq!(OpenImage::new(&V1[..len]).err(), Image::new(&V1[..len]).err());
    }
}

#[test]
fn threads_share_an_open_image() {
    let mut image = OpenImage::new(VB).unwrap();
    let shared: Vec<_> = (0..4).map(|_| image.shared().unwrap()).collect();
    drop(image);
    std::thread::scope(|scope| {
        for mut mine in shared {
            scope.spawn(move || {
                for _ in 0..1000 {
                    let mut other = mine.shared().unwrap();
                    assert_eq!(mine.export_by_name(b"g"), Some(Target::Rva(0x1010)));
                    assert_eq!(other.export_by_ordinal(6), None);
                }
            });
        }
    });
}
