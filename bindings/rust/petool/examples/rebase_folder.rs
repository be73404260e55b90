//! Rebases the DLLs of a folder to bases that do not overlap, in the order of their names, and writes them to another
//! folder: `rebase_folder [--base HEX] FOLDER OUT`.
//!
//! A DLL that is refused is reported, and left out.

use petool::Image;
use std::error::Error;
use std::ffi::OsStr;
use std::path::{Path, PathBuf};
use std::{env, fs, io, process};

const USAGE: &str = "usage: rebase_folder [--base HEX] FOLDER OUT

Gives the DLLs of a folder bases that do not overlap, in the order of their names, and writes them to another folder.
A DLL that is refused is reported, and left out.

  --base HEX  the first base, in hexadecimal; by default 10000000";

/// Bases are multiples of this.
const UNIT: u64 = 0x10000;
/// The base of the first image.
const FIRST: u64 = 0x1000_0000;

fn dlls_of(folder: &Path) -> io::Result<Vec<PathBuf>> {
    let paths = fs::read_dir(folder)?.map(|entry| Ok(entry?.path()));
    let mut paths = paths.collect::<io::Result<Vec<_>>>()?;
    paths.retain(|path| is_dll(path.file_name().unwrap_or_default()));
    paths.sort();
    Ok(paths)
}

fn is_dll(name: &OsStr) -> bool {
    name.to_string_lossy().to_lowercase().ends_with(".dll")
}

/// Makes a folder, whose parent exists, unless it exists already.
fn make_folder(path: &Path) -> io::Result<()> {
    match fs::create_dir(path) {
        Err(error) if error.kind() == io::ErrorKind::AlreadyExists => Ok(()),
        made => made,
    }
}

/// The file of an image for a base, and how many bytes it takes there.
fn rebased(file: &[u8], base: u64) -> Result<(Vec<u8>, u64), petool::Error> {
    let image = Image::new(file)?;
    Ok((image.rebased(base)?, u64::from(image.headers().size_of_image)))
}

fn run(folder: &Path, out: &Path, first: u64) -> Result<(), Box<dyn Error>> {
    let (mut base, paths) = (first, dlls_of(folder)?);
    make_folder(out)?;
    for path in paths {
        let name = path.file_name().unwrap_or_default();
        let shown = name.to_string_lossy();
        match rebased(&fs::read(&path)?, base) {
            Ok((moved, size)) => {
                fs::write(out.join(name), moved)?;
                println!("{shown}: {base:#x}");
                // no image can be at the last address, where the address space ends
                base = base.saturating_add((size + UNIT - 1) / UNIT * UNIT);
            }
            Err(petool::Error::Fault(fault)) => println!("{shown}: fault {}: {fault}", fault.number),
            Err(error) => return Err(error.into()),
        }
    }
    Ok(())
}

/// The first base and the two folders from the arguments.
fn parsed(words: &[String]) -> Option<(u64, &String, &String)> {
    match words {
        [option, base, folder, out] if option == "--base" => {
            let base = u64::from_str_radix(base.trim_start_matches("0x"), 16).ok()?;
            Some((base, folder, out))
        }
        [folder, out] => Some((FIRST, folder, out)),
        _ => None,
    }
}

fn main() {
    let words: Vec<String> = env::args().skip(1).collect();
    if words == ["--help"] {
        println!("{USAGE}");
        return;
    }
    let (first, folder, out) = parsed(&words).unwrap_or_else(|| {
        eprintln!("{USAGE}");
        process::exit(2);
    });
    if let Err(error) = run(folder.as_ref(), out.as_ref(), first) {
        eprintln!("rebase_folder: {error}");
        process::exit(3);
    }
}
