//! Scans a note from Rust and prints its listing.

use std::io::Write;

use jilgyemot::scan;

fn main() {
    let note = b"Limit <!--[const:MAX]-->6 m<!--[/]-->.\n";
    let mut out = [0; 256];
    match scan(note, &mut out).text() {
        Ok(listing) => {
            std::io::stdout().write_all(listing.unwrap_or_default()).expect("standard output")
        }
        Err(refusal) => println!("refused {}, line {}", refusal.number(), refusal.place().line),
    }
}
