//! The bench program by this package's rules: `bench < lines`. A file named behind it is given the card's
//! bytes as the lines leave them.

use card_model::bench::Bench;
use card_model::call::MODEL;
use std::io::{self, Read};
use std::{env, fs};

fn main() -> io::Result<()> {
    let mut lines = Vec::new();
    io::stdin().read_to_end(&mut lines)?;
    let mut bench = Bench::new(&MODEL);
    print!("{}", bench.session(&lines));
    match env::args_os().nth(1) {
        Some(file) => fs::write(file, bench.card()),
        None => Ok(()),
    }
}
