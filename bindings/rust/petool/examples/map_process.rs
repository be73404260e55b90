//! Maps images at bases, and writes the bytes of their address space to a file: `map_process [--known] OUT
//! BASE=FILE...`, with bases in hexadecimal.
//!
//! The file begins at the lowest base. Nothing is written between the images, which leaves holes that read as zeros.

use petool::{Entry, Policy, SetError, Space};
use std::error::Error;
use std::fmt::Display;
use std::io::{Seek, SeekFrom, Write};
use std::path::Path;
use std::{env, fs, process};

const USAGE: &str = "usage: map_process [--known] OUT BASE=FILE...

Maps images at bases, which are hexadecimal, and writes the bytes of their address space to a file, from the lowest
base to the highest end.

  --known  leave slots of modules that are not among the files";

/// A file, and the base at which it is mapped.
struct Module {
    name: String,
    bytes: Vec<u8>,
    base: u64,
}

impl Module {
    /// The module of a word `BASE=FILE`; a failure is reported, and the error is the exit status.
    fn of(word: &str) -> Result<Module, i32> {
        let (base, path) = parsed(word).ok_or_else(|| tell(2, &format!("{word} is not BASE=FILE")))?;
        Ok(Module {
            name: path.file_name().unwrap_or_default().to_string_lossy().into_owned(),
            bytes: fs::read(path).map_err(|error| tell(3, &format!("{}: {error}", path.display())))?,
            base,
        })
    }

    fn entry(&self) -> Entry<'_> {
        Entry {
            name: self.name.as_bytes(),
            file: &self.bytes,
            base: self.base,
        }
    }
}

/// The base and the path in a word `BASE=FILE`.
fn parsed(word: &str) -> Option<(u64, &Path)> {
    let (base, path) = word.split_once('=')?;
    let base = u64::from_str_radix(base.trim_start_matches("0x"), 16).ok()?;
    Some((base, path.as_ref()))
}

/// Reports what is wrong; returns the exit status.
fn tell(status: i32, wrong: &dyn Display) -> i32 {
    eprintln!("map_process: {wrong}");
    status
}

/// Writes each image at its place in a file, and prints a line for each.
fn write(space: &mut Space, modules: &[Module], out: &Path) -> Result<(), Box<dyn Error>> {
    let lowest = modules.iter().map(|module| module.base).min().unwrap_or(0);
    let mut file = fs::File::create(out)?;
    for (index, module) in modules.iter().enumerate() {
        let placed = space.image(u32::try_from(index)?).ok_or("there is no such image")?;
        let (mut bytes, offset) = (vec![0; usize::try_from(placed.size)?], placed.base - lowest);
        space.read(placed.base, &mut bytes)?;
        file.seek(SeekFrom::Start(offset))?;
        file.write_all(&bytes)?;
        let (name, out) = (&module.name, out.display());
        println!(
            "{name}: {:#x}, {:#x} bytes, at {offset:#x} of {out}",
            placed.base, placed.size
        );
    }
    println!("{} slots are bound", space.bindings()?.len());
    Ok(())
}

/// Reports why a set is refused; returns the exit status.
fn refused(modules: &[Module], error: SetError) -> i32 {
    match error {
        SetError::Fault(fault) | SetError::Cycle { fault, .. } => {
            let name = modules
                .get(fault.image as usize)
                .map_or("the set", |module| &module.name);
            eprintln!("{name}: fault {}: {fault}", fault.number);
            1
        }
        SetError::Large | SetError::Memory => tell(4, &error),
    }
}

/// Maps the files that words name, and writes them; returns the exit status.
fn run(policy: Policy, out: &Path, words: &[String]) -> Result<i32, Box<dyn Error>> {
    let modules = words.iter().map(|word| Module::of(word));
    let modules = match modules.collect::<Result<Vec<_>, _>>() {
        Ok(modules) => modules,
        Err(status) => return Ok(status),
    };
    let set: Vec<_> = modules.iter().map(Module::entry).collect();
    match Space::map(&set, policy) {
        Ok(mut space) => write(&mut space, &modules, out).map(|()| 0),
        Err(error) => Ok(refused(&modules, error)),
    }
}

fn main() {
    let words: Vec<String> = env::args().skip(1).collect();
    if words == ["--help"] {
        println!("{USAGE}");
        return;
    }
    let (policy, rest) = match words.split_first() {
        Some((first, rest)) if first == "--known" => (Policy::Known, rest),
        _ => (Policy::Strict, &words[..]),
    };
    let out = match rest {
        [out, _, ..] => out,
        _ => {
            eprintln!("{USAGE}");
            process::exit(2);
        }
    };
    process::exit(run(policy, out.as_ref(), &rest[1..]).unwrap_or_else(|error| tell(3, &error)));
}
