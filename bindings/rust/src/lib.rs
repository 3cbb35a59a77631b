//! Checks the static ACPI tables in an image of a machine's memory, by the rules of the ACPI Specification 6.5, section 5.2.
//!
//! The checker is `libacpiset`, whose verdicts are proved: docs/PROMISES.md of its repository says what that means. This crate
//! declares its functions and wraps them. The wrapper is tested, not proved.
//!
//! An image is a slice of [`Piece`]s, each of them an address and the bytes from there on: what a virtual machine
//! monitor or a firmware writes into the guest's memory. [`check`] follows the RSDP to the root table and the listed
//! tables, and reports the first fault:
//!
//! ```
//! use acpiset::{check, Code, Piece, Settings, Stage};
//!
//! // An RSDP at 0xe0000, and an RSDT at 0x1000 that lists no table.
//! let rsdp = *b"RSD PTR \x4bAAAAAA\0\0\x10\0\0";
//! let rsdt = *b"RSDT\x24\0\0\0\x01\x0aAAAAAAAAAAAAAA\x01\0\0\0AAAA\x01\0\0\0";
//! let image = [Piece::new(0xe0000, &rsdp), Piece::new(0x1000, &rsdt)];
//!
//! let fault = check(&image, &Settings::new(0xe0000))?.expect("no FADT is listed");
//! assert_eq!(fault.code, Code::NoFadt);
//! assert_eq!(fault.to_string(), "4 NoFadt 0x0 0x0 0x0");
//!
//! // The RSDP, the root and the listed tables have no fault.
//! assert_eq!(check(&image, &Settings::new(0xe0000).through(Stage::Tables))?, None);
//! # Ok::<(), acpiset::Refusal>(())
//! ```
//!
//! `tests/tables_in_memory.rs` of this crate is a longer example: it builds the tables of a machine with two NUMA nodes.
//! `examples/guest_memory.rs` checks and moves tables in a guest's memory.
//!
//! # What to call
//!
//! | Call | Says |
//! |---|---|
//! | [`check`], [`check_text`] | no fault, or the first one |
//! | [`lint`] | the first fault of each code, and advice |
//! | [`confirm`] | whether one fault is in the image |
//! | [`find_rsdp`] | where a BIOS put the RSDP |
//! | [`show`] | the contents of the tables as text |
//! | [`rebuild`] | the tables at another address |
//!
//! A call without a verdict returns a [`Refusal`]: a setting out of range, pieces that overlap, out of memory, or a
//! library of another version. A fault of the tables is never a refusal.
//!
//! # Memory and threads
//!
//! No argument is kept, and no result has to be freed. Calls share no state, so any thread that has 100 KiB of stack can
//! make one at any time. The library allocates with `malloc`; this crate allocates from the global allocator, for a
//! copy of the list of pieces (24 bytes for each, not their bytes) and for what it returns. If either fails, the call returns
//! [`Refusal::OutOfMemory`].
//!
//! # Linking
//!
//! The build script links `libacpiset.a` from the folder that the variable `ACPISET_LIB_DIR` names, otherwise from
//! the one that `pkg-config --variable=libdir acpiset` prints.

#![cfg_attr(not(feature = "std"), no_std)]
#![deny(missing_docs, unsafe_code)]

extern crate alloc;

mod finding;
mod lists;
mod numbered;
mod refusal;
mod settings;
#[allow(unsafe_code)]
mod sys;
#[cfg(test)]
mod tests;

pub use finding::{Advice, Fault, Findings, Severity};
pub use lists::{Code, Rule, Stage};
pub use refusal::Refusal;
pub use settings::{HotPlug, Inputs, Processors, Settings};

use alloc::string::String;
use alloc::{vec, vec::Vec};
use refusal::is_yes;
use sys::Library;

/// The version of the library's functions and structs that this crate declares. [`abi`] returns that of the linked
/// library.
pub const ABI: u32 = sys::ABI;

/// Bytes of an image, and where they are.
///
/// Pieces may come in any order and touch each other. No two may share an address. One without bytes is allowed anywhere.
#[derive(Clone, Copy, Debug, PartialEq, Eq, Hash)]
pub struct Piece<'a> {
    /// The physical address of the first byte.
    pub address: u64,
    /// The bytes from there on.
    pub bytes: &'a [u8],
}

impl<'a> Piece<'a> {
    /// These bytes at this address.
    #[must_use]
    pub const fn new(address: u64, bytes: &'a [u8]) -> Piece<'a> {
        Piece { address, bytes }
    }
}

/// Checks the tables of the image that the pieces give: no fault, or the first one.
///
/// The first fault is a fault of the first stage that does not hold, so it is the same each time, however the image is
/// split into pieces.
///
/// # Errors
///
/// For the settings [`Refusal::BadDefaultInputs`], [`Refusal::BadInputs`] and [`Refusal::BadStage`]; for the image
/// [`Refusal::PiecePastEnd`] and [`Refusal::PiecesOverlap`], for the first such piece.
pub fn check(pieces: &[Piece<'_>], settings: &Settings<'_>) -> Result<Option<Fault>, Refusal> {
    let library = linked()?;
    let (inputs, settings) = settings.raw();
    verdict_of(&library.check(&raw_pieces(pieces)?, inputs, &settings))
}

/// Checks the tables of the image with this image text, as [`check`] does. The format is that of the program's input:
/// docs/TABLES.md.
///
/// ```
/// use acpiset::{check_text, Refusal, Settings};
///
/// let fault = check_text(b"@e0000\n52 53 44 20\n", &Settings::new(0xe0000))?;
/// assert_eq!(fault.unwrap().to_string(), "1 RsdpOut 0xe0000 0x0 0x0");
/// let refusal = check_text(b"RSD PTR \n", &Settings::new(0xe0000)).unwrap_err();
/// assert!(matches!(refusal, Refusal::BadLine { line: 1, .. }));
/// # Ok::<(), Refusal>(())
/// ```
///
/// # Errors
///
/// For the settings those of [`check`]; for the text [`Refusal::TextTooLong`], [`Refusal::BadLine`],
/// [`Refusal::NoAddress`], [`Refusal::TextPastEnd`] and [`Refusal::TextOverlap`], for the first line with one of
/// them, in this order.
pub fn check_text(text: &[u8], settings: &Settings<'_>) -> Result<Option<Fault>, Refusal> {
    let library = linked()?;
    let (inputs, settings) = settings.raw();
    verdict_of(&library.check_text(text, inputs, &settings))
}

/// Whether the image has this fault. It need not be the first one, and no stage has to hold.
///
/// It is judged independently of [`check`] and [`lint`], which share no code with it that reads or judges a table.
///
/// ```
/// use acpiset::{confirm, Code, Fault, Settings};
///
/// let fault = Fault::new(Code::RsdpOut, 0xe0000, 0, 0);
/// assert_eq!(confirm(&[], &Settings::new(0xe0000), &fault)?, true);
/// # Ok::<(), acpiset::Refusal>(())
/// ```
///
/// # Errors
///
/// Those of [`check`], with [`Refusal::BadCode`] instead of [`Refusal::BadStage`].
pub fn confirm(
    pieces: &[Piece<'_>],
    settings: &Settings<'_>,
    fault: &Fault,
) -> Result<bool, Refusal> {
    let library = linked()?;
    let (inputs, settings) = settings.raw();
    is_yes(&library.confirm(&raw_pieces(pieces)?, inputs, &settings, &fault.raw()))
}

/// All that is wrong with the tables of the image: the first fault of each code, whichever earlier stage fails, and
/// the first finding of each rule of advice. The tables have no fault exactly if [`check`] through all stages finds
/// none.
///
/// ```
/// use acpiset::{lint, Piece, Settings};
///
/// let rsdp = *b"RSD PTR.\x4bAAAAAA\0\0\x10\0\0";
/// let found = lint(&[Piece::new(0xe0000, &rsdp)], &Settings::new(0xe0000))?;
/// assert_eq!(
///     found.to_string(),
///     "no 1 RsdpSignature 0xe0000 0x0 0x0\nno 1 RsdpSum 0xe0000 0x0 0x0\nno 2 RootHeaderOut 0x1000 0x0 0x0"
/// );
/// # Ok::<(), acpiset::Refusal>(())
/// ```
///
/// # Errors
///
/// Those of [`check`], except [`Refusal::BadStage`].
pub fn lint(pieces: &[Piece<'_>], settings: &Settings<'_>) -> Result<Findings, Refusal> {
    lint_with_room(pieces, settings, sys::MOST_FINDINGS)
}

/// The same with room for this many findings at first. A later library may have more codes and rules, and report
/// more.
fn lint_with_room(
    pieces: &[Piece<'_>],
    settings: &Settings<'_>,
    room: usize,
) -> Result<Findings, Refusal> {
    let library = linked()?;
    let (inputs, settings) = settings.raw();
    let pieces = raw_pieces(pieces)?;
    let mut found = zeroed(room)?;
    let mut answer = library.lint(&pieces, inputs, &settings, &mut found);
    is_yes(&answer)?;
    let count = usize::try_from(answer.at.saturating_add(answer.other)).unwrap_or(usize::MAX);
    if count > found.len() {
        found = zeroed(count)?;
        answer = library.lint(&pieces, inputs, &settings, &mut found);
        is_yes(&answer)?;
    }
    found.truncate(count);
    let faults = usize::try_from(answer.at)
        .unwrap_or(usize::MAX)
        .min(found.len());
    let (faults, advice) = found.split_at(faults);
    Ok(Findings {
        faults: collected(faults.iter().map(Fault::from))?,
        advice: collected(advice.iter().map(Advice::from))?,
    })
}

/// Where the RSDP is, if a BIOS put it where ACPI 6.5, 5.2.5.1 says: the lowest multiple of 16 from 0xe0000 to
/// 0xffff0 with its signature and a right checksum. UEFI firmware puts it elsewhere.
///
/// # Errors
///
/// [`Refusal::PiecePastEnd`] and [`Refusal::PiecesOverlap`], for the first such piece.
pub fn find_rsdp(pieces: &[Piece<'_>]) -> Result<Option<u64>, Refusal> {
    let answer = linked()?.find(&raw_pieces(pieces)?);
    Ok(is_yes(&answer)?.then_some(answer.at))
}

/// The contents of the tables as text: the lines that the program's command `show` prints, or the first fault, if the RSDP,
/// the root table or a listed table has one (stages 1 to 3). Rules of later stages need not hold.
///
/// ```
/// use acpiset::{show, Piece, Settings};
///
/// let rsdp = *b"RSD PTR \x4bAAAAAA\0\0\x10\0\0";
/// let rsdt = *b"RSDT\x24\0\0\0\x01\x0aAAAAAAAAAAAAAA\x01\0\0\0AAAA\x01\0\0\0";
/// let image = [Piece::new(0xe0000, &rsdp), Piece::new(0x1000, &rsdt)];
/// let text = show(&image, &Settings::new(0xe0000))?.expect("the RSDP and the RSDT are valid");
/// assert_eq!(text, "rsdp 0xe0000 revision 0\nroot 0x1000 RSDT length 36 slots 0\n");
/// # Ok::<(), acpiset::Refusal>(())
/// ```
///
/// # Errors
///
/// Those of [`check`], except [`Refusal::BadStage`].
pub fn show(
    pieces: &[Piece<'_>],
    settings: &Settings<'_>,
) -> Result<Result<String, Fault>, Refusal> {
    let library = linked()?;
    let (inputs, settings) = settings.raw();
    let pieces = raw_pieces(pieces)?;
    let made = made_by(|room| library.show(&pieces, inputs, &settings, room))?;
    let lossy = |bytes: &[u8]| String::from_utf8_lossy(bytes).into_owned();
    Ok(made.map(|bytes| String::from_utf8(bytes).unwrap_or_else(|error| lossy(error.as_bytes()))))
}

/// The tables at another address: the bytes of memory from `base` on, where the new RSDP is, followed by the XSDT, the FACS if
/// there is one, and the other tables, each at a multiple of 64 with zeros before it. All addresses in the tables are those of
/// the new place. Or the first fault, if the tables have one in any stage.
///
/// ```
/// use acpiset::{rebuild, Code, Settings};
///
/// let fault = rebuild(&[], &Settings::new(0xe0000), 0x10000)?.unwrap_err();
/// assert_eq!(fault.code, Code::RsdpOut);
/// # Ok::<(), acpiset::Refusal>(())
/// ```
///
/// # Errors
///
/// Those of [`check`], except [`Refusal::BadStage`]. [`Refusal::Unaligned`] if `base` is not a multiple of 64. For tables
/// without a fault [`Refusal::TableTooLong`], [`Refusal::PastEnd`] and [`Refusal::NeedsLow`], if they cannot be placed there.
pub fn rebuild(
    pieces: &[Piece<'_>],
    settings: &Settings<'_>,
    base: u64,
) -> Result<Result<Vec<u8>, Fault>, Refusal> {
    let library = linked()?;
    let (inputs, settings) = settings.raw();
    let pieces = raw_pieces(pieces)?;
    made_by(|room| library.rebuild(&pieces, inputs, &settings, base, room))
}

/// All bytes that a call writes, or the fault that it answers. It is first asked how many there are.
fn made_by(call: impl Fn(&mut [u8]) -> sys::Answer) -> Result<Result<Vec<u8>, Fault>, Refusal> {
    let answer = call(&mut []);
    if !is_yes(&answer)? {
        return Ok(Err(Fault::from(&answer)));
    }
    let mut room = zeroed(usize::try_from(answer.at).unwrap_or(usize::MAX))?;
    is_yes(&call(&mut room))?;
    Ok(Ok(room))
}

/// What the number of a code or a rule means, for people, as the linked library says it: what is wrong, and how it is mended. Empty
/// for a number that the library does not know.
///
/// # Errors
///
/// [`Refusal::OtherVersion`], if the linked library has other functions.
pub fn explanation(number: u32) -> Result<String, Refusal> {
    let library = linked()?;
    let mut room = vec![0; library.explain(number, &mut [])];
    library.explain(number, &mut room);
    Ok(String::from_utf8_lossy(&room).into_owned())
}

/// The version of the functions and structs of the linked library. Each call compares it with [`ABI`].
#[must_use]
pub fn abi() -> u32 {
    sys::abi()
}

fn linked() -> Result<Library, Refusal> {
    Library::linked().map_err(|abi| Refusal::OtherVersion { abi })
}

fn verdict_of(answer: &sys::Answer) -> Result<Option<Fault>, Refusal> {
    Ok(if is_yes(answer)? {
        None
    } else {
        Some(Fault::from(answer))
    })
}

fn raw_pieces<'a>(pieces: &[Piece<'a>]) -> Result<Vec<sys::Piece<'a>>, Refusal> {
    let raw = |piece: &Piece<'a>| sys::Piece::new(piece.address, piece.bytes);
    collected(pieces.iter().map(raw))
}

fn zeroed<T: Default>(count: usize) -> Result<Vec<T>, Refusal> {
    collected((0..count).map(|_| T::default()))
}

/// The values in a vector, if there is memory for it.
fn collected<T>(values: impl ExactSizeIterator<Item = T>) -> Result<Vec<T>, Refusal> {
    let mut list = Vec::new();
    match list.try_reserve_exact(values.len()) {
        Ok(()) => list.extend(values),
        Err(_) => return Err(Refusal::OutOfMemory),
    }
    Ok(list)
}
