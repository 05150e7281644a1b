//! Writes the lists that programs of the gate replay: what the original, and for whole listings the model, answers. answers/README.md has their layouts.
//!
//! answers DIR: each list to its place below DIR; DIR is ../../crates to store them anew.
//! answers FILE DRAWINGS SEED: any number of random drawings in the form of flatten_cases, in both settings alternately, for one large run.

use against_rust::lists;
use std::{fs, path::Path};

fn main() {
    let mut args = std::env::args().skip(1);
    let to = args.next().expect("answers DIR, or answers FILE DRAWINGS SEED");
    if let Some(drawings) = args.next() {
        let seed = args.next().map_or(1, |t| t.parse().unwrap());
        fs::write(to, lists::drawn::many(drawings.parse().unwrap(), seed)).unwrap();
        return;
    }
    for (name, bytes) in lists::all() {
        let file = Path::new(&to).join(name);
        fs::create_dir_all(file.parent().unwrap()).unwrap();
        println!("{:7} bytes  {name}", bytes.len());
        fs::write(file, bytes).unwrap();
    }
}
