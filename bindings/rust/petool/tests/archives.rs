//! Archives: members, symbols, short import objects and findings of archives that are put together byte by byte.

use petool::{write_archive, Archive, Error, ImportObject, Linker, MemberKind, NewMember, Place};

/// A member with its header: name, date, user, group and mode are texts that blanks fill up.
fn member(name: &str, numbers: [&str; 4], content: &[u8]) -> Vec<u8> {
    let [date, user, group, mode] = numbers;
    let header = format!("{name:16}{date:12}{user:6}{group:6}{mode:8}{:<10}`\n", content.len());
    let mut made = [header.as_bytes(), content].concat();
    if made.len() % 2 != 0 {
        made.push(b'\n');
    }
    made
}

const NUMBERS: [&str; 4] = ["0", "0", "0", "644"];

fn archive(signature: &[u8], members: &[Vec<u8>]) -> Vec<u8> {
    [signature, &members.concat()].concat()
}

/// A short import object of `f` in `k.dll`.
fn import_object(kinds: u8) -> Vec<u8> {
    let mut made = vec![
        0, 0, 0xff, 0xff, 0, 0, 0x64, 0x86, 1, 2, 3, 4, 8, 0, 0, 0, 0x34, 0x12, kinds, 0,
    ];
    made.extend_from_slice(b"f\0k.dll\0");
    made
}

#[test]
fn members_have_the_fields_of_their_headers() {
    let numbers = ["1700000000", "1000", "100", "100644"];
    let file = archive(
        b"!<arch>\n",
        &[
            member("/", NUMBERS, &[0; 4]),
            member("//", NUMBERS, b"a long name.o/\n"),
            member("/0", numbers, b"data"),
            member("#1/8", ["", "x", "-1", "9"], b"bsd.o\0\0\0more"),
            member("/99", NUMBERS, b""),
            member("/SYM64/", NUMBERS, b""),
            member("k.dll/", NUMBERS, &import_object(4)),
        ],
    );
    let members = Archive::new(&file).unwrap().members().unwrap();
    let names: Vec<_> = members.iter().map(|it| it.name).collect();
    let wanted: [Option<&[u8]>; 7] = [
        Some(b"/"),
        Some(b"//"),
        Some(b"a long name.o"),
        Some(b"bsd.o"),
        None,
        Some(b"/SYM64/"),
        Some(b"k.dll"),
    ];
    assert_eq!(names, wanted);
    let kinds: Vec<_> = members.iter().map(|it| it.kind).collect();
    use MemberKind::{File, Import, Linker, LongNames, Own};
    assert_eq!(kinds, [Linker, LongNames, File, File, File, Own, Import]);
    let data = members[2];
    assert_eq!((data.bytes, data.size, data.offset), (&b"data"[..], 4, 148));
    let numbers = (data.date, data.user, data.group, data.mode);
    assert_eq!(numbers, (Some(1_700_000_000), Some(1000), Some(100), Some(0o100644)));
    let named_inside = members[3];
    assert_eq!((named_inside.bytes, named_inside.size), (&b"more"[..], 12));
    let numbers = (
        named_inside.date,
        named_inside.user,
        named_inside.group,
        named_inside.mode,
    );
    assert_eq!(numbers, (None, None, None, None));
}

#[test]
fn a_thin_archive_has_its_own_members_bytes_alone() {
    let mut apart = member("/0", NUMBERS, b"");
    apart[48..53].copy_from_slice(b"10000");
    let file = archive(b"!<thin>\n", &[member("//", NUMBERS, b"dir/a.o/\n"), apart]);
    let members = Archive::new(&file).unwrap().members().unwrap();
    assert_eq!(
        (members[0].kind, members[0].bytes),
        (MemberKind::LongNames, &b"dir/a.o/\n"[..])
    );
    assert_eq!(
        (members[1].kind, members[1].bytes, members[1].size),
        (MemberKind::Apart, &b""[..], 10_000)
    );
    assert_eq!(members[1].name, Some(&b"dir/a.o"[..]));
}

#[test]
fn symbols_are_those_of_a_linker_member() {
    let first = member("/", NUMBERS, b"\0\0\0\x02\0\0\0\x08\0\0\0\x09f\0g\0");
    let second = member("/", NUMBERS, b"\x01\0\0\0\x08\0\0\0\x02\0\0\0\x01\0\x02\0a\0b\0");
    let file = archive(b"!<arch>\n", &[first.clone(), second]);
    let made = Archive::new(&file).unwrap();
    let told = |linker| -> Vec<(Vec<u8>, Option<u64>)> {
        let symbols = made.symbols(linker).unwrap().unwrap();
        symbols.iter().map(|it| (it.name.to_vec(), it.member)).collect()
    };
    assert_eq!(
        told(Linker::First),
        [(b"f".to_vec(), Some(8)), (b"g".to_vec(), Some(9))]
    );
    assert_eq!(told(Linker::Second), [(b"a".to_vec(), Some(8)), (b"b".to_vec(), None)]);
    let found: Vec<_> = made
        .findings()
        .unwrap()
        .iter()
        .map(|it| (it.number, it.place))
        .collect();
    assert_eq!(found, [(306, Place::File(8)), (306, Place::File(84))]);
    let file = archive(b"!<arch>\n", &[first]);
    let made = Archive::new(&file).unwrap();
    assert_eq!(made.symbols(Linker::Second), Ok(None));
    assert_eq!(made.symbols(Linker::First).unwrap().unwrap().len(), 2);
}

#[test]
fn import_objects_say_what_they_import() {
    let bytes = import_object(4);
    let found = ImportObject::new(&bytes).unwrap().unwrap();
    assert_eq!(
        (found.symbol, found.module, found.name),
        (&b"f"[..], &b"k.dll"[..], Some(&b"f"[..]))
    );
    assert_eq!((found.ordinal, found.kind, found.name_type), (0x1234, 0, 1));
    assert_eq!((found.machine, found.time_date_stamp), (0x8664, 0x0403_0201));
    let by_ordinal = import_object(1);
    let found = ImportObject::new(&by_ordinal).unwrap().unwrap();
    assert_eq!((found.name, found.kind, found.name_type), (None, 1, 0));
    assert_eq!(ImportObject::new(&bytes[..19]), Ok(None));
    let fault = ImportObject::new(&bytes[..27]).unwrap_err();
    assert_eq!((fault.number, fault.place), (331, Place::File(0)));
    assert_eq!(ImportObject::new(&import_object(20)).unwrap_err().number, 333);
}

#[test]
fn findings_have_their_places() {
    let file = archive(
        b"!<arch>\n",
        &[
            member("/4", NUMBERS, b""),
            member("k.dll/", NUMBERS, &import_object(20)),
            b"x".to_vec(),
        ],
    );
    let found = Archive::new(&file).unwrap().findings().unwrap();
    let told: Vec<_> = found.iter().map(|it| (it.number, it.place)).collect();
    let wanted = [(304, Place::File(8)), (301, Place::File(156)), (333, Place::File(68))];
    assert_eq!(told, wanted);
}

#[test]
fn other_files_are_refused() {
    for file in [&b""[..], b"!<arch>", b"!<arch>\r\n", b"MZ"] {
        let fault = Archive::new(file).unwrap_err();
        assert_eq!((fault.number, fault.place), (300, Place::File(0)));
    }
    assert_eq!(Archive::new(b"!<arch>\n").unwrap().members(), Ok(vec![]));
}

#[test]
fn written_archives_are_read_back() {
    let import = import_object(4);
    let members = [
        NewMember {
            name: b"a.txt",
            bytes: b"odd",
        },
        NewMember {
            name: b"dir/of/k.dll",
            bytes: &import,
        },
        NewMember {
            name: b"empty",
            bytes: b"",
        },
    ];
    let file = write_archive(&members).unwrap();
    let archive = Archive::new(&file).unwrap();
    let found = archive.members().unwrap();
    assert_eq!(found.len(), 6);
    let told: Vec<_> = found[3..].iter().map(|it| (it.name.unwrap(), it.bytes)).collect();
    assert_eq!(told, members.map(|it| (it.name, it.bytes)));
    for linker in [Linker::First, Linker::Second] {
        let symbols = archive.symbols(linker).unwrap().unwrap();
        let told: Vec<_> = symbols.iter().map(|it| (it.name, it.member)).collect();
        let offset = Some(found[4].offset);
        assert_eq!(told, [(&b"__imp_f"[..], offset), (&b"f"[..], offset)]);
    }
    assert_eq!(archive.findings().unwrap(), []);
    assert_eq!(write_archive(&[]).unwrap().len(), 8 + 60 + 4 + 60 + 8);
}

#[test]
fn names_that_would_be_read_back_as_others_are_refused() {
    let good = NewMember { name: b"a", bytes: b"" };
    for name in [&b""[..], b"a/", b"a\nb", b"a\0"] {
        let bad = NewMember { name, bytes: b"" };
        match write_archive(&[good, bad, bad]).unwrap_err() {
            Error::Fault(fault) => assert_eq!((fault.number, fault.place), (92, Place::Item(1))),
            error => panic!("{error}"),
        }
    }
}
