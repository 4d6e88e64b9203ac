//! `main`: what the program is asked to do.

use crate::{compare, records::silence};
use std::process::exit;

const USAGE: &str = "oracle compare [SEED [EFFORT]] | scale [SEED [EFFORT [SECONDS]]] | stored FOLDER";

pub fn main() {
    silence();
    let args: Vec<String> = std::env::args().skip(1).collect();
    let number = |i: usize, default: u64| args.get(i).and_then(|a| a.parse().ok()).unwrap_or(default);
    match args.iter().map(|s| s.as_str()).collect::<Vec<_>>()[..] {
        ["compare", ..] => {
            if !compare::run(number(1, 1), number(2, 100)) {
                exit(1);
            }
        }
        ["scale", ..] => with_library(|| held::scale(number(1, 1), number(2, 400), number(3, 3600))),
        ["stored", folder] => with_library(|| held::stored(folder)),
        _ => {
            eprintln!("{USAGE}");
            exit(2);
        }
    }
}

#[cfg(library)]
mod held {
    pub use crate::{scale::run as scale, stored::run as stored};
}

#[cfg(not(library))]
mod held {
    pub fn scale(_: u64, _: u64, _: u64) {}
    pub fn stored(_: &str) {}
}

fn with_library(run: impl FnOnce()) {
    if !cfg!(library) {
        eprintln!("oracle: built without the library; build.sh takes it as LIBRARY");
        exit(2);
    }
    if let Err(what) = crate::records::attempt(run) {
        println!("the comparison itself failed: {what}");
        exit(1);
    }
}
