//! Who exports what a program imports: `imports_closure [--delayed] PROGRAM FOLDER` follows the imports of a program, and those of
//! each DLL of a folder to which they lead, through all forwarders; with `--delayed` also those that are delay-loaded.
//!
//! A DLL that is refused is reported on standard error, and counts as missing.

use petool::{Image, Key, OutOfMemory, Tables, Target};
use std::collections::{BTreeMap, BTreeSet};
use std::error::Error;
use std::fmt::Display;
use std::path::{Path, PathBuf};
use std::{env, fs, io, process};

const USAGE: &str = "usage: imports_closure [--delayed] PROGRAM FOLDER

Shows who exports what a program imports: follows its imports, and those of each DLL of a folder that they lead to;
with --delayed also those that are delay-loaded.
A DLL that is refused is reported on standard error, and counts as missing.";

/// A search that follows more forwarders is given up.
const MOST_FORWARDERS: usize = 32;

/// The program, or a file of the folder.
struct File {
    path: PathBuf,
}

impl File {
    fn name(&self) -> String {
        self.path.file_name().unwrap_or_default().to_string_lossy().into_owned()
    }

    /// The image of the file, whose bytes are kept until the program ends; if it cannot be read or is refused, that is
    /// reported, and the error is the exit status.
    fn image(&self) -> Result<Image<'static>, i32> {
        let bytes = fs::read(&self.path).map_err(|error| self.tell(3, &error))?;
        Image::new(bytes.leak()).map_err(|error| match error {
            petool::Error::Fault(fault) => self.tell(1, &format!("fault {}: {fault}", fault.number)),
            petool::Error::Memory => self.tell(4, &error),
        })
    }

    /// Reports what is wrong with the file; returns the exit status.
    fn tell(&self, status: i32, wrong: &dyn Display) -> i32 {
        eprintln!("{}: {wrong}", self.path.display());
        status
    }
}

/// The images of a folder, each read when it is first needed. They are found by their names in lower case.
struct Folder<'a> {
    files: &'a BTreeMap<String, File>,
    /// Whether delay-loaded imports are followed.
    delayed: bool,
    images: BTreeMap<&'a str, Result<Image<'a>, i32>>,
}

impl<'a> Folder<'a> {
    /// The image of a module, with its key; `None` if the folder has no such file, or its file is refused.
    fn image(&mut self, module: &str) -> Option<(&'a str, &Image<'a>)> {
        let (module, file) = self.files.get_key_value(module)?;
        let image = self.images.entry(module).or_insert_with(|| file.image());
        Some((module, image.as_ref().ok()?))
    }

    /// The module at which a search ends, and what it finds there.
    fn exporter(&mut self, module: &[u8], key: Key<'a>) -> Result<(String, String), OutOfMemory> {
        let (mut module, mut key) = (module_of(module), key);
        for _ in 0..MOST_FORWARDERS {
            let image = match self.image(&module) {
                Some((_, image)) => image,
                None => return Ok((module, "no such file".into())),
            };
            match export_of(image, key) {
                None => return Ok((module, "no such export".into())),
                Some(Target::Rva(rva)) => return Ok((module, format!("{rva:#x}"))),
                Some(Target::Forward {
                    module: next,
                    key: as_key,
                }) => (module, key) = (module_of(next), as_key),
            }
        }
        Ok((module, "too many forwarders".into()))
    }

    /// Prints a line for each import of an image; returns the modules to which they lead.
    fn follow(&mut self, name: &str, image: &Image<'a>, tables: &Tables<'a>) -> Result<Vec<String>, OutOfMemory> {
        let mut modules = Vec::new();
        let delayed = if self.delayed {
            image.delay_imports()?
        } else {
            Vec::new()
        };
        for import in tables.imports().chain(delayed) {
            let (module, found) = self.exporter(import.module, import.key)?;
            let wanted = String::from_utf8_lossy(import.module);
            println!("{name}: {wanted} {} -> {module} {found}", shown(import.key));
            modules.push(module);
        }
        Ok(modules)
    }

    /// The worst exit status of the files that were needed.
    fn status(&self) -> i32 {
        let statuses = self.images.values().filter_map(|image| image.as_ref().err());
        statuses.max().copied().unwrap_or(0)
    }
}

fn export_of<'a>(image: &Image<'a>, key: Key<'a>) -> Option<Target<'a>> {
    match key {
        Key::Name(name) => image.export_by_name(name),
        Key::Ordinal(ordinal) => image.export_by_ordinal(ordinal.into()),
    }
}

/// The key of a module: its name in lower case, with an extension.
fn module_of(name: &[u8]) -> String {
    let name = String::from_utf8_lossy(name).to_lowercase();
    if name.contains('.') {
        name
    } else {
        name + ".dll"
    }
}

fn shown(key: Key<'_>) -> String {
    match key {
        Key::Name(name) => String::from_utf8_lossy(name).into_owned(),
        Key::Ordinal(ordinal) => format!("#{ordinal}"),
    }
}

/// The files of a folder, by their names in lower case. Of names that differ only in case, the first one is used.
fn files_of(folder: &Path) -> io::Result<BTreeMap<String, File>> {
    let paths = fs::read_dir(folder)?.map(|entry| Ok(entry?.path()));
    let mut paths = paths.collect::<io::Result<Vec<_>>>()?;
    paths.retain(|path| path.is_file());
    paths.sort();
    let files = paths.into_iter().rev().map(|path| File { path });
    Ok(files.map(|file| (file.name().to_lowercase(), file)).collect())
}

/// Follows the imports of a program; returns the exit status.
fn run(delayed: bool, program: &Path, folder: &Path) -> Result<i32, Box<dyn Error>> {
    let program = File { path: program.into() };
    let image = match program.image() {
        Ok(image) => image,
        Err(status) => return Ok(status),
    };
    let files = files_of(folder)?;
    let mut folder = Folder {
        files: &files,
        delayed,
        images: BTreeMap::new(),
    };
    let (mut waiting, mut met) = (vec![(program.name(), image)], BTreeSet::new());
    while let Some((name, image)) = waiting.pop() {
        for module in folder.follow(&name, &image, &image.tables()?)? {
            let found = folder.image(&module).filter(|(module, _)| met.insert(*module));
            if let Some((module, image)) = found {
                waiting.push((files[module].name(), image.shared()?));
            }
        }
    }
    Ok(folder.status())
}

fn main() {
    let words: Vec<_> = env::args_os().skip(1).collect();
    if words == ["--help"] {
        println!("{USAGE}");
        return;
    }
    let (delayed, program, folder) = match &words[..] {
        [program, folder] => (false, program, folder),
        [option, program, folder] if option == "--delayed" => (true, program, folder),
        _ => {
            eprintln!("{USAGE}");
            process::exit(2);
        }
    };
    process::exit(run(delayed, program.as_ref(), folder.as_ref()).unwrap_or_else(|error| {
        eprintln!("imports_closure: {error}");
        if error.is::<OutOfMemory>() {
            4
        } else {
            3
        }
    }));
}
