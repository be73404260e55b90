//! Measures the crate `petool`, goblin and object on an image: prints, a line each, what is measured and the shortest of 300 runs in
//! microseconds.

use object::read::pe::PeFile64;
use object::Object;
use std::time::Instant;

const RUNS: u32 = 300;

fn measure<T>(what: &str, mut run: impl FnMut() -> T) {
    let mut least = f64::MAX;
    for _ in 0..RUNS {
        let start = Instant::now();
        let held = run();
        let taken = start.elapsed().as_nanos() as f64 / 1e3;
        std::hint::black_box(&held);
        least = least.min(taken);
    }
    println!("{what}\t{least:.4}");
}

/// Everything that object's iterators over exports, imports and base relocations return.
fn read_with_object(file: &[u8]) -> usize {
    let image = PeFile64::parse(file).expect("object refuses the image");
    let mut count = image.exports().map_or(0, |them| them.len());
    count += image.imports().map_or(0, |them| them.len());
    let directories = image.data_directories();
    let sections = image.section_table();
    if let Ok(Some(mut blocks)) = directories.relocation_blocks(file, &sections) {
        while let Ok(Some(block)) = blocks.next() {
            count += block.count();
        }
    }
    count
}

fn main() {
    let path = std::env::args_os().nth(1).expect("peers IMAGE");
    let file = std::fs::read(path).expect("the image cannot be read");
    measure("Rust: `Image::new`", || petool::Image::new(&file).expect("petool refuses the image"));
    measure("Rust: `Image::new` and `tables()`", || {
        petool::Image::new(&file).expect("petool refuses the image").tables().expect("memory")
    });
    measure("goblin: `PE::parse`", || goblin::pe::PE::parse(&file).expect("goblin refuses the image"));
    measure("object: its iterators over exports, imports and base relocations", || read_with_object(&file));
}
