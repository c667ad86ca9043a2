//! Reads a plan on standard input and prints its listing.
//!
//! A refused plan is a listing like any other: it is printed on standard
//! output and the program succeeds.

use std::io::{self, Read, Write};

fn main() -> io::Result<()> {
    let mut file = Vec::new();
    io::stdin().lock().read_to_end(&mut file)?;
    io::stdout()
        .lock()
        .write_all(simulator::listing(&file).as_bytes())
}
