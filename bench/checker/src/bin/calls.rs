//! Times calls of the library beside plain programs, on the set in the image text on standard input, whose RSDP is at
//! 0xe0000: the best of five rounds in turn, or of more if these are short. Prints the seconds of processor time of a
//! call of each. The first argument says what is timed:
//!
//! - `set`: `acpiset_check`, beside the plain checker;
//! - `inside=MIB`: `acpiset_check` on a piece of that size from address 0 on that has the set in it, beside the set in
//!   its own pieces;
//! - `table=MIB`: `acpiset_check` on the set and a table of that size at 0x20000000, beside a sum of the table's bytes.
//!
//! With `ours` or `beside` and a number as further arguments one of both is called so often and nothing is timed: for a
//! program that counts the instructions in `calls`.

use checker::{check, listed, pieces_of, Piece};
use std::hint::black_box;
use std::io::{self, Read};

const RSDP_AT: u64 = 0xe0000;
const TABLE_AT: u64 = 0x2000_0000;
const INPUTS: u32 = 24;
const ROUNDS: usize = 5;
/// The least length of a round of one of both, and of all rounds, in seconds.
const ROUND: f64 = 0.005;
const ALL_ROUNDS: f64 = 0.5;

/// What `acpiset.h` declares.
mod library {
    #[repr(C)]
    pub struct Piece {
        pub address: u64,
        pub bytes: *const u8,
        pub length: usize,
    }

    #[repr(C)]
    pub struct Settings {
        pub size: usize,
        pub rsdp: u64,
        pub default_inputs: u32,
        pub hotplug: u32,
        pub processors: u32,
        pub through: u32,
    }

    #[repr(C)]
    pub struct Answer {
        pub kind: u32,
        pub stage: u32,
        pub code: u32,
        pub numbers: [u64; 3],
    }

    #[link(name = "acpiset", kind = "static")]
    extern "C" {
        pub fn acpiset_check(
            pieces: *const Piece,
            pieces_count: usize,
            inputs: *const u64,
            inputs_count: usize,
            settings: *const Settings,
        ) -> Answer;
    }
}

/// The library says yes.
fn ask_library(pieces: &[library::Piece]) {
    let size = size_of::<library::Settings>();
    let settings =
        library::Settings { size, rsdp: RSDP_AT, default_inputs: INPUTS, hotplug: 0, processors: 0, through: 18 };
    let (count, none) = (pieces.len(), std::ptr::null());
    // SAFETY: the pieces and the settings are borrowed for the call, and there are no counts of inputs.
    let answer = unsafe { library::acpiset_check(pieces.as_ptr(), count, none, 0, &settings) };
    assert_eq!((answer.kind, answer.stage, answer.code, answer.numbers), (0, 0, 0, [0; 3]));
}

fn of_library(pieces: &[Piece]) -> Vec<library::Piece> {
    let raw = |piece: &Piece| library::Piece {
        address: piece.address,
        bytes: piece.bytes.as_ptr(),
        length: piece.bytes.len(),
    };
    pieces.iter().map(raw).collect()
}

/// The plain checker says yes.
fn ask_checker(pieces: &[Piece]) {
    let verdict = listed(black_box(pieces), RSDP_AT).and_then(|tables| check(pieces, &tables, INPUTS));
    assert_eq!(verdict, Ok(()));
}

fn sum(bytes: &[u8]) -> u8 {
    bytes.iter().fold(0, |sum, byte| sum.wrapping_add(*byte))
}

/// A piece from address 0 on with all of these in it.
fn piece_around(pieces: &[Piece], size: usize) -> Vec<u8> {
    let mut around = vec![0xff; size];
    for piece in pieces {
        around[piece.address as usize..][..piece.bytes.len()].copy_from_slice(piece.bytes);
    }
    around
}

/// A table of a kind that is not read.
fn large_table(size: usize) -> Vec<u8> {
    let mut table = vec![0xff; size];
    table[..9].copy_from_slice(b"DATA\0\0\0\0\x01");
    table[4..8].copy_from_slice(&(size as u32).to_le_bytes());
    table[9] = table[9].wrapping_sub(sum(&table));
    table
}

#[no_mangle]
#[inline(never)]
fn calls(call: &dyn Fn(), count: usize) {
    (0..count).for_each(|_| call());
}

extern "C" {
    fn clock_gettime(clock: i32, time: *mut [i64; 2]) -> i32;
}

/// The processor time of this process, in seconds.
fn processor_time() -> f64 {
    const CLOCK_PROCESS_CPUTIME_ID: i32 = 2;
    let mut time = [0; 2];
    // SAFETY: on 64-bit Linux a time is two numbers of 64 bits, the seconds and the nanoseconds.
    assert_eq!(unsafe { clock_gettime(CLOCK_PROCESS_CPUTIME_ID, &mut time) }, 0);
    time[0] as f64 + time[1] as f64 * 1e-9
}

fn seconds(call: &dyn Fn(), count: usize) -> f64 {
    let start = processor_time();
    calls(call, count);
    processor_time() - start
}

/// How many calls take at least a round.
fn enough(call: &dyn Fn()) -> usize {
    let mut count = 1;
    while seconds(call, count) < ROUND {
        count *= 2;
    }
    count
}

/// Times both in turn, or calls one of them.
fn compare(ours: &dyn Fn(), beside: &dyn Fn(), words: &[String]) {
    if let [which, count] = words {
        calls(if which == "ours" { ours } else { beside }, count.parse().expect("a number of calls"));
        return;
    }
    let both = [(ours, enough(ours)), (beside, enough(beside))];
    let mut best = [f64::MAX; 2];
    let start = processor_time();
    let mut rounds = 0;
    while rounds < ROUNDS || processor_time() - start < ALL_ROUNDS {
        for (least, (call, count)) in best.iter_mut().zip(both) {
            *least = least.min(seconds(call, count) / count as f64);
        }
        rounds += 1;
    }
    println!("{:e} {:e}", best[0], best[1]);
}

fn main() {
    let words: Vec<String> = std::env::args().skip(1).collect();
    let mut text = Vec::new();
    io::stdin().read_to_end(&mut text).expect("an image text");
    let image = pieces_of(&text).expect("an image text of inputs.py");
    let mut pieces: Vec<Piece> = image.iter().map(|(address, bytes)| Piece { address: *address, bytes }).collect();
    let (what, mebibytes) = words[0].split_once('=').unwrap_or((&words[0], "0"));
    let size = mebibytes.parse::<usize>().expect("a number of MiB") << 20;
    match what {
        "set" => {
            let raw = of_library(&pieces);
            compare(&|| ask_library(&raw), &|| ask_checker(&pieces), &words[1..]);
        }
        "inside" => {
            let around = piece_around(&pieces, size);
            let (one, own) = (of_library(&[Piece { address: 0, bytes: &around }]), of_library(&pieces));
            compare(&|| ask_library(&one), &|| ask_library(&own), &words[1..]);
        }
        "table" => {
            let table = large_table(size);
            pieces.push(Piece { address: TABLE_AT, bytes: &table });
            let raw = of_library(&pieces);
            compare(&|| ask_library(&raw), &|| assert_eq!(sum(black_box(&table)), 0), &words[1..]);
        }
        _ => panic!("usage: calls set, calls inside=MIB or calls table=MIB; and ours or beside, and a number of calls"),
    }
}
