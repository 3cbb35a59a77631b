//! The plain checker as a program: prints the verdict on the image text on standard input, whose RSDP is at 0xe0000 and
//! whose I/O APICs have one input each. `checker --read` ends where the tables are listed. The status is 0 for yes, and
//! 1 for no.

use checker::{check, listed, pieces_of, Piece};
use std::io::{self, Read};
use std::process::ExitCode;

fn main() -> ExitCode {
    let read_only = std::env::args().nth(1).as_deref() == Some("--read");
    let mut text = Vec::new();
    let is_read = io::stdin().read_to_end(&mut text).is_ok();
    let Some(image) = pieces_of(&text).filter(|_| is_read) else {
        return ExitCode::from(3);
    };
    let pieces: Vec<Piece> = image.iter().map(|(address, bytes)| Piece { address: *address, bytes }).collect();
    let verdict =
        listed(&pieces, 0xe0000).and_then(|tables| if read_only { Ok(()) } else { check(&pieces, &tables, 1) });
    match verdict {
        Ok(()) => println!("yes"),
        Err((stage, at)) => println!("no {stage} at {at:#x}"),
    }
    ExitCode::from(u8::from(verdict.is_err()))
}
