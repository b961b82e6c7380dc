//! Writes the table of conformance cases anew, with this implementation's answers.
//!
//! `cargo run --bin conformance <../conformance/cases.txt`

use std::io;

fn main() -> io::Result<()> {
    let table = io::read_to_string(io::stdin())?;
    print!("{}", independent::conformance::answered(&table));
    Ok(())
}
