//! Runs command files through the published Rust collector and prints their listings.
//!
//! `oracle < FILE` prints one listing. `oracle --batch` takes many files and writes their listings, each after its
//! length as four bytes, little-endian. `oracle --events` takes the same and prints what the files reached.

mod command;
mod figure;
mod session;
mod value;

use std::io::{self, BufReader, BufWriter, Read, Write};

fn main() -> io::Result<()> {
    // the collector's panics are answers: only others are worth a message
    std::panic::set_hook(Box::new(|panic| {
        if gc::hooks::question_of(panic.payload()).is_none() {
            eprintln!("oracle: {panic}");
        }
    }));
    let mut input = BufReader::new(io::stdin().lock());
    let mut output = BufWriter::new(io::stdout().lock());
    match std::env::args().nth(1).as_deref() {
        None => {
            let mut file = Vec::new();
            input.read_to_end(&mut file)?;
            output.write_all(session::listing(&file).as_bytes())?;
        }
        Some("--batch") => {
            while let Some(file) = next_file(&mut input)? {
                let listing = session::listing(&file);
                output.write_all(&(listing.len() as u32).to_le_bytes())?;
                output.write_all(listing.as_bytes())?;
            }
        }
        Some("--events") => {
            while let Some(file) = next_file(&mut input)? {
                session::listing(&file);
            }
            for (event, count) in gc::hooks::events() {
                writeln!(output, "{count} {event}")?;
            }
        }
        Some(other) => {
            eprintln!("oracle: {other} is not known; see README.md");
            std::process::exit(2);
        }
    }
    output.flush()
}

/// A file of a batch, or `None` at the batch's end.
fn next_file(input: &mut impl io::BufRead) -> io::Result<Option<Vec<u8>>> {
    if input.fill_buf()?.is_empty() {
        return Ok(None);
    }
    let mut length = [0; 4];
    input.read_exact(&mut length)?;
    let mut file = vec![0; u32::from_le_bytes(length) as usize];
    input.read_exact(&mut file)?;
    Ok(Some(file))
}
