//! Files that were cut and changed: every call returns, and the fault is that which the program prints.
//!
//! The program is the one that the variable PETOOL_PROGRAM names; without it this part is left out, which is printed.

use petool::{judge, EitherObject, Entry, Error, Fault, Headers, Image, Object, Policy, Space, Trust};
use std::env;
use std::fs;
use std::path::{Path, PathBuf};
use std::process::Command;

const SMALL: [&[u8]; 9] = [
    include_bytes!("../../../../crates/test_cases/data/v1.dll"),
    include_bytes!("../../../../crates/test_cases/data/v2.dll"),
    include_bytes!("../../../../crates/test_cases/data/v3.dll"),
    include_bytes!("../../../../crates/test_cases/data/va.dll"),
    include_bytes!("../../../../crates/test_cases/data/vb.dll"),
    include_bytes!("../../../../crates/test_cases/data/vc.dll"),
    include_bytes!("../../../../crates/test_cases/data/vs.dll"),
    include_bytes!("../../../../crates/test_cases/data/vr.dll"),
    include_bytes!("../../../../crates/test_cases/data/o1.obj"),
];
const FILES: usize = 2_000;
const AT_ONCE: usize = 100;

/// Numbers that look random and are the same in each run.
struct Numbers(u64);

impl Numbers {
    fn below(&mut self, end: usize) -> usize {
        self.0 ^= self.0 << 13;
        self.0 ^= self.0 >> 7;
        self.0 ^= self.0 << 17;
        (self.0 % end as u64) as usize
    }
}

/// A small file that was cut, or changed in up to four bytes, half of which are chosen from the headers.
fn changed(numbers: &mut Numbers) -> Vec<u8> {
    let mut file = SMALL[numbers.below(SMALL.len())].to_vec();
    if numbers.below(4) == 0 {
        file.truncate(numbers.below(file.len()));
        return file;
    }
    for _ in 0..=numbers.below(4) {
        let part = if numbers.below(2) == 0 {
            file.len()
        } else {
            file.len().min(0x180)
        };
        let at = numbers.below(part);
        file[at] = [0, 1, 0x7f, 0x80, 0xff, numbers.below(256) as u8][numbers.below(6)];
    }
    file
}

fn files() -> Vec<Vec<u8>> {
    let mut numbers = Numbers(0x9e37_79b9_7f4a_7c15);
    (0..FILES).map(|_| changed(&mut numbers)).collect()
}

fn ask_image(image: &Image<'_>) {
    let tables = image.tables().unwrap();
    for (ordinal, target) in tables.exports() {
        assert_eq!(image.export_by_ordinal(ordinal), Some(target));
    }
    for (name, target) in tables.names() {
        assert_eq!(image.export_by_name(name), Some(target));
    }
    let size = image.headers().size_of_image;
    let mut bytes = [0; 16];
    for rva in [0, 0x1000, size - 1, size, u32::MAX] {
        assert!(image.read(rva, &mut bytes).is_none() || rva <= size - 16);
        assert!(image
            .locate(rva)
            .map_or(true, |offset| offset < image.file().len() as u64));
        assert!(image.text(rva).map_or(true, |text| !text.contains(&0)));
    }
    assert!(tables.imports().all(|import| import.slot < size) && tables.fixups().all(|fixup| fixup.field < size));
    assert!(image.sections().iter().all(|section| section.text().len() <= 8));
    ask_beyond(image);
    assert_eq!(image.trust().file(), image.file());
    match image.rebased(0x2000_0000) {
        Ok(rebased) => assert_eq!(rebased.len(), image.file().len()),
        Err(error) => assert!(matches!(error, Error::Fault(_)), "{error:?}"),
    }
}

/// Tables beyond the profile are read of any image.
fn ask_beyond(image: &Image<'_>) {
    let functions = image.functions().unwrap();
    assert!(functions.len() <= image.file().len() / 8 && image.debug().unwrap().len() <= image.file().len() / 28);
    assert!(image.findings().unwrap().iter().all(|finding| finding.number > 100));
    assert!(image.pdb().map_or(true, |pdb| !pdb.path.contains(&0)));
    assert!(image.tls().unwrap().map_or(true, |tls| !tls.callbacks.contains(&0)));
    image.load_configuration().unwrap();
    image.clr().unwrap();
    image.bound_imports().unwrap();
    image.delay_imports().unwrap();
    image.symbols().unwrap();
}

/// What a file says of itself is read of any file whose headers have no fault.
fn ask_trust(trust: &Trust<'_>) {
    let certificates = trust.certificates().unwrap();
    let signatures = trust.signatures().unwrap();
    assert!(signatures.len() <= certificates.len() && certificates.len() <= trust.file().len() / 8);
    for signature in signatures {
        assert!(signature.fits.is_none() || signature.algorithm.is_some());
        assert!(signature
            .signers()
            .unwrap()
            .iter()
            .all(|it| it.subject.len() <= signature.bytes.len()));
    }
    assert!(trust.findings().unwrap().iter().all(|finding| finding.number > 220));
    trust.rich().unwrap();
    trust.check_sum();
}

fn ask_space(file: &[u8], judged: Option<Fault>) {
    let set = [Entry {
        name: b"a.dll",
        file,
        base: 0x2000_0000,
    }];
    let bound = judge(&set, Policy::Known);
    match Space::map(&set, Policy::Known) {
        Err(error) => {
            assert_eq!(Err(error), bound);
            assert!(judged.is_none() || error.fault() == judged);
        }
        Ok(mut space) => {
            assert!(judged.is_none());
            assert_eq!(space.bindings().unwrap(), bound.unwrap());
            let size = space.image(0).unwrap().size;
            let mut all = vec![0; size.min(0x10000) as usize];
            space.read(0x2000_0000, &mut all).unwrap();
            assert_eq!(
                space.move_image(0, 0x6000_0000).is_ok(),
                space.read(0x2000_0000, &mut all).is_err()
            );
        }
    }
}

/// Makes every call on a file; returns its fault, if it has one.
fn ask(file: &[u8]) -> Option<Fault> {
    if let Ok(trust) = Trust::new(file) {
        ask_trust(&trust);
    }
    let judged = match Image::new(file) {
        Ok(image) => {
            ask_image(&image);
            None
        }
        Err(Error::Fault(fault)) => Some(fault),
        Err(Error::Memory) => panic!("out of memory"),
    };
    let headers = Headers::read(file);
    assert_eq!(
        headers.err(),
        judged.filter(|fault| fault.number <= 15).map(Error::Fault)
    );
    ask_space(file, judged);
    if let Ok(object) = Object::new(file) {
        let sections = object.sections().unwrap();
        for (k, section) in sections.iter().enumerate() {
            assert_eq!(
                object.relocations(k).unwrap().unwrap().len(),
                section.relocation_count as usize
            );
        }
        assert_eq!(object.relocations(sections.len()), Ok(None));
        assert!(object
            .symbols()
            .unwrap()
            .iter()
            .all(|symbol| symbol.aux.len() % 18 == 0));
    }
    if let Ok(object) = EitherObject::new(file) {
        let size = if object.is_big() { 20 } else { 18 };
        let sections = object.sections().unwrap();
        assert_eq!(object.section_headers().unwrap().len(), sections.len());
        assert_eq!(object.relocations(sections.len()), Ok(None));
        assert!(object
            .symbols()
            .unwrap()
            .iter()
            .all(|symbol| symbol.aux.len() % size == 0));
    }
    judged
}

/// What the program prints for a fault.
fn printed(judged: Option<Fault>) -> String {
    judged.map_or("accepted".into(), |fault| {
        format!("fault {} image {} {}", fault.number, fault.image, fault.place)
    })
}

/// What the program prints for each of these files, without their names; of an accepted file only `accepted`.
fn told_by(program: &str, paths: &[PathBuf]) -> Vec<String> {
    let output = Command::new(program).arg("check").args(paths).output().unwrap();
    let text = String::from_utf8(output.stdout).unwrap();
    let lines = text.lines().zip(paths).map(|(line, path)| {
        let line = line.strip_prefix(&format!("{}: ", path.display())).unwrap();
        if line.starts_with("accepted ") {
            "accepted".into()
        } else {
            line.into()
        }
    });
    lines.collect()
}

/// The files, in a folder that is removed with this value.
struct Folder(PathBuf);

impl Folder {
    fn new(files: &[Vec<u8>]) -> (Folder, Vec<PathBuf>) {
        let folder = env::temp_dir().join(format!("petool-hostile-{}", std::process::id()));
        fs::create_dir_all(&folder).unwrap();
        let paths: Vec<_> = (0..files.len()).map(|k| folder.join(format!("{k}.dll"))).collect();
        for (path, file) in paths.iter().zip(files) {
            fs::write(path, file).unwrap();
        }
        (Folder(folder), paths)
    }
}

impl Drop for Folder {
    fn drop(&mut self) {
        let _ = fs::remove_dir_all(&self.0);
    }
}

#[test]
fn cut_and_changed_files_are_answered_as_by_the_program() {
    let files = files();
    let judged: Vec<_> = files.iter().map(|file| ask(file)).collect();
    let mut numbers: Vec<_> = judged.iter().flatten().map(|fault| fault.number).collect();
    let refused = numbers.len();
    numbers.sort_unstable();
    numbers.dedup();
    println!(
        "{FILES} files, {} of them accepted, with {} different faults",
        FILES - refused,
        numbers.len()
    );
    assert!(refused > 500 && FILES - refused > 200 && numbers.len() > 20);
    let program = match env::var("PETOOL_PROGRAM") {
        Ok(program) if Path::new(&program).is_file() => program,
        _ => return println!("PETOOL_PROGRAM names no program: its answers are left out"),
    };
    let (_folder, paths) = Folder::new(&files);
    for (paths, judged) in paths.chunks(AT_ONCE).zip(judged.chunks(AT_ONCE)) {
        let expected: Vec<_> = judged.iter().map(|fault| printed(*fault)).collect();
        assert_eq!(told_by(&program, paths), expected);
    }
    println!("the program says the same of each");
}
