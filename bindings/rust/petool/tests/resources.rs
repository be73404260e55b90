//! The resources of an image, whose tree is put together field by field from the format: a leaf that a text names, version information and
//! a manifest.

use petool::{Image, ResourceName, Utf16};

const V1: &[u8] = include_bytes!("../../../../crates/test_cases/data/v1.dll");

fn wide(text: &str) -> Vec<u8> {
    text.encode_utf16().flat_map(u16::to_le_bytes).collect()
}

fn numbers(numbers: &[u32]) -> Vec<u8> {
    numbers.iter().flat_map(|number| number.to_le_bytes()).collect()
}

/// A directory of entries, of which the first `texts` are named by texts.
fn directory(texts: u32, entries: &[[u32; 2]]) -> Vec<u8> {
    let counts = (entries.len() as u32 - texts) << 16 | texts;
    numbers(&[&[0, 0, 0, counts], entries.concat().as_slice()].concat())
}

/// A block of version information: a key, a value, and the blocks in it. The length of a text counts its units.
fn block(key: &str, is_text: bool, value: &[u8], children: &[Vec<u8>]) -> Vec<u8> {
    let mut body = wide(key);
    body.extend([0, 0]);
    let pad = |body: &mut Vec<u8>| body.resize((body.len() + 6 + 3) / 4 * 4 - 6, 0);
    pad(&mut body);
    body.extend(value);
    for child in children {
        pad(&mut body);
        body.extend(child);
    }
    let value_len = if is_text { value.len() / 2 } else { value.len() };
    let head = [6 + body.len() as u16, value_len as u16, u16::from(is_text)];
    [head.iter().flat_map(|it| it.to_le_bytes()).collect(), body].concat()
}

fn string(key: &str, value: &str) -> Vec<u8> {
    block(key, true, &[wide(value), vec![0, 0]].concat(), &[])
}

fn version() -> Vec<u8> {
    let strings = [string("ProductVersion", "1.2"), string("Comments", "\u{ef}\u{1f600}")];
    let info = block("StringFileInfo", true, &[], &[block("040904b0", true, &[], &strings)]);
    let fixed = [
        0xfeef04bd, 0x10000, 0x000a0001, 0xfffe0005, 0x20003, 0x40006, 0x3f, 0x0a, 0x40004, 2, 7, 0, 0,
    ];
    block("VS_VERSION_INFO", false, &numbers(&fixed), &[info])
}

/// v1.dll with a section at RVA 0x1000 that has the tree.
fn image() -> Vec<u8> {
    let version = version();
    let dir = |at: u32| 0x8000_0000 + at;
    let mut section = [
        directory(1, &[[dir(0xe8), dir(0x28)], [16, dir(0x58)], [24, dir(0x88)]]),
        [(5, 0x409, 0xb8), (1, 0, 0xc8), (1, 0x407, 0xd8)]
            .iter()
            .zip([0x28, 0x58, 0x88])
            .flat_map(|(&(name, language, entry), at)| {
                [
                    directory(0, &[[name, dir(at + 24)]]),
                    directory(0, &[[language, entry]]),
                ]
                .concat()
            })
            .collect(),
        numbers(&[0x10f0, 4, 1252, 0]),
        numbers(&[0x1100, version.len() as u32, 0, 0]),
        numbers(&[0x10f4, 11, 65001, 0]),
        vec![2, 0],
        wide("A\u{3b1}"),
    ]
    .concat();
    section.resize(0xf0, 0);
    section.extend(b"data<assembly/>");
    section.resize(0x100, 0);
    section.extend(version);
    let mut file = V1[..0x200].to_vec();
    let mut put = |at: usize, number: u32| file[at..at + 4].copy_from_slice(&number.to_le_bytes());
    put(0x90, 0x3000);
    put(0xb8 + 16, 0x1000);
    put(0xbc + 16, section.len() as u32);
    put(0x140, section.len() as u32);
    put(0x148, section.len() as u32);
    file.extend(section);
    file
}

#[test]
fn leaves_have_what_leads_to_them() {
    let file = image();
    let image = Image::new(&file).unwrap();
    let rows = image.resources().unwrap();
    let text = wide("A\u{3b1}");
    let found: Vec<_> = rows
        .iter()
        .map(|it| (it.kind, it.name, it.language, it.code_page))
        .collect();
    let id = |id| Some(ResourceName::Id(id));
    assert_eq!(
        found,
        [
            (Some(ResourceName::Text(Utf16(&text))), id(5), id(0x409), 1252),
            (id(16), id(1), id(0), 0),
            (id(24), id(1), id(0x407), 65001),
        ]
    );
    assert_eq!((rows[0].bytes, rows[0].rva, rows[0].size), (&b"data"[..], 0x10f0, 4));
    assert_eq!(rows[1].bytes, version());
    assert!(image.findings().unwrap().is_empty());
}

#[test]
fn version_information_has_numbers_and_strings() {
    let file = image();
    let image = Image::new(&file).unwrap();
    let fixed = image.version().unwrap();
    assert_eq!(fixed.file_version, [10, 1, 0xfffe, 5]);
    assert_eq!(fixed.product_version, [2, 3, 4, 6]);
    assert_eq!((fixed.flags_mask, fixed.flags, fixed.system), (0x3f, 0x0a, 0x40004));
    assert_eq!((fixed.kind, fixed.subkind), (2, 7));
    let strings = image.version_strings().unwrap();
    assert_eq!(strings.len(), 2);
    assert!(strings[0].table == "040904b0" && strings[0].key == "ProductVersion" && strings[0].value == "1.2");
    let comments = image.version_string("Comments").unwrap();
    assert_eq!(comments.to_string_lossy(), "\u{ef}\u{1f600}");
    assert!(image.version_string("Comment").is_none());
    assert_eq!(image.manifest(), Some(&b"<assembly/>"[..]));
}

#[test]
fn a_half_of_a_pair_that_stands_alone_is_replaced() {
    assert_eq!(Utf16(b"\x00\xd8a\0\x01\xdc").to_string_lossy(), "\u{fffd}a\u{fffd}");
    assert_eq!(Utf16(b"\x3d\xd8\x00\xde\x41").to_string_lossy(), "\u{1f600}");
    assert!(Utf16(b"a\0") == "a" && Utf16(b"a\0") != "ab");
}

#[test]
fn an_image_without_resources_has_none() {
    let image = Image::new(V1).unwrap();
    assert!(image.resources().unwrap().is_empty() && image.version_strings().unwrap().is_empty());
    assert!(image.version().is_none() && image.version_string("ProductName").is_none() && image.manifest().is_none());
}
