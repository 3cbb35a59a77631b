//! Why there is no verdict.

use crate::sys::Answer;
use core::fmt::{Display, Formatter, Result as Formatted};

/// Why a call has no verdict. Nothing is known about the tables then.
///
/// If several apply, the first of these is returned: `OtherVersion`; what is wrong with the settings, in the order
/// `BadDefaultInputs`, `BadInputs`, `BadStage`, `BadCode` or `Unaligned`; what is wrong with the image; why a set cannot
/// be rebuilt. `OutOfMemory` may be
/// returned instead of any of them except `OtherVersion`.
#[derive(Clone, Copy, Debug, PartialEq, Eq, Hash)]
#[non_exhaustive]
pub enum Refusal {
    /// The linked library has another version of its functions and structs than [`ABI`](crate::ABI). Link the library that
    /// belongs to this crate.
    OtherVersion {
        /// The library's version.
        abi: u32,
    },
    /// Out of memory. Nothing is lost: the call can be repeated.
    OutOfMemory,
    /// The library has settings of another size than this crate. Link the library that belongs to this crate.
    BadSize,
    /// The default number of inputs is outside 1 to 256.
    BadDefaultInputs,
    /// The library does not know this choice of [`HotPlug`](crate::HotPlug).
    BadHotPlug,
    /// The library does not know this choice of [`Processors`](crate::Processors).
    BadProcessors,
    /// No stage has the number of the last stage in the settings.
    BadStage,
    /// A number of inputs is outside 1 to 256.
    BadInputs {
        /// Its index in the slice of the settings.
        index: usize,
    },
    /// No fault has the number of the code that was to be confirmed.
    BadCode,
    /// A piece passes the address 2^64 - 1.
    PiecePastEnd {
        /// Its index in the slice of pieces.
        index: usize,
    },
    /// A piece and an earlier one share addresses.
    PiecesOverlap {
        /// The later one's index in the slice of pieces.
        index: usize,
        /// The lowest address that they share.
        address: u64,
    },
    /// A line of the image text is neither an address, nor data, nor empty.
    BadLine {
        /// Its number. Lines count from 1.
        line: u64,
    },
    /// A line of the image text is data, and no address comes before it.
    NoAddress {
        /// Its number. Lines count from 1.
        line: u64,
    },
    /// The image text gives an address a second byte.
    TextOverlap {
        /// The address.
        address: u64,
    },
    /// The data of a line of the image text passes the address 2^64 - 1.
    TextPastEnd {
        /// Its number. Lines count from 1.
        line: u64,
    },
    /// The image text has more than 67,108,864 bytes, or a line more than 65,536.
    TextTooLong,
    /// The address at which the set was to be rebuilt is not a multiple of 64.
    Unaligned,
    /// The XSDT of the rebuilt set would have more than 4,294,967,295 bytes.
    TableTooLong,
    /// A part of the rebuilt set would pass the address 2^64 - 1.
    PastEnd,
    /// The FADT has fewer than 140 bytes, and the FACS would be at 2^32 or above.
    NeedsLow,
    /// A refusal of a later library that this version of the crate does not know.
    #[non_exhaustive]
    Unknown {
        /// Its kind, as in `acpiset.h` of that library.
        kind: u32,
        /// Its first number.
        at: u64,
        /// Its second number.
        other: u64,
    },
}

/// Whether an answer is yes, or why it is neither yes nor no.
pub(crate) fn is_yes(answer: &Answer) -> Result<bool, Refusal> {
    let index = usize::try_from(answer.at).unwrap_or(usize::MAX);
    let line = answer.at;
    let address = answer.other;
    Err(match answer.kind {
        0 => return Ok(true),
        1 => return Ok(false),
        2 => Refusal::OutOfMemory,
        3 => Refusal::BadSize,
        4 => Refusal::BadDefaultInputs,
        5 => Refusal::BadHotPlug,
        6 => Refusal::BadProcessors,
        7 => Refusal::BadStage,
        8 => Refusal::BadInputs { index },
        9 => Refusal::BadCode,
        10 => Refusal::PiecePastEnd { index },
        11 => Refusal::PiecesOverlap { index, address },
        12 => Refusal::BadLine { line },
        13 => Refusal::NoAddress { line },
        14 => Refusal::TextOverlap { address },
        15 => Refusal::TextPastEnd { line },
        16 => Refusal::TextTooLong,
        17 => Refusal::Unaligned,
        18 => Refusal::TableTooLong,
        19 => Refusal::PastEnd,
        20 => Refusal::NeedsLow,
        kind => Refusal::Unknown {
            kind,
            at: answer.at,
            other: answer.other,
        },
    })
}

impl Display for Refusal {
    fn fmt(&self, f: &mut Formatter<'_>) -> Formatted {
        match self {
            Refusal::OtherVersion { abi } => write!(
                f,
                "the linked libacpiset has version {abi} of its interface, not {}",
                crate::ABI
            ),
            Refusal::OutOfMemory => write!(f, "out of memory"),
            Refusal::BadSize => write!(f, "the linked libacpiset has settings of another size"),
            Refusal::BadDefaultInputs => {
                write!(f, "the default number of inputs is outside 1 to 256")
            }
            Refusal::BadHotPlug => write!(f, "the linked libacpiset does not know the choice of hot-plug"),
            Refusal::BadProcessors => {
                write!(f, "the linked libacpiset does not know the choice of processors")
            }
            Refusal::BadStage => write!(f, "no stage has the number of the last stage"),
            Refusal::BadInputs { index } => {
                write!(f, "the number of inputs at index {index} is outside 1 to 256")
            }
            Refusal::BadCode => write!(f, "no fault has the number of this code"),
            Refusal::PiecePastEnd { index } => {
                write!(f, "the piece at index {index} passes the address 2^64 - 1")
            }
            Refusal::PiecesOverlap { index, address } => write!(
                f,
                "the piece at index {index} and an earlier one share the address {address:#x}"
            ),
            Refusal::BadLine { line } => {
                write!(f, "line {line} of the text is neither an address, nor data, nor empty")
            }
            Refusal::NoAddress { line } => {
                write!(f, "line {line} of the text is data, and no address comes before it")
            }
            Refusal::TextOverlap { address } => {
                write!(f, "the text gives the address {address:#x} a second byte")
            }
            Refusal::TextPastEnd { line } => write!(
                f,
                "the data of line {line} of the text passes the address 2^64 - 1"
            ),
            Refusal::TextTooLong => write!(
                f,
                "the text has more than 67108864 bytes, or a line more than 65536"
            ),
            Refusal::Unaligned => write!(f, "the base address is not a multiple of 64"),
            Refusal::TableTooLong => write!(f, "the XSDT would have more than 4294967295 bytes"),
            Refusal::PastEnd => write!(f, "a part of the set would pass the address 2^64 - 1"),
            Refusal::NeedsLow => write!(
                f,
                "the FADT has no field for the address of the FACS, which would be 2^32 or above"
            ),
            Refusal::Unknown { kind, at, other } => write!(
                f,
                "libacpiset refuses with the kind {kind}, which this version of the crate does not know ({at:#x}, {other:#x})"
            ),
        }
    }
}

#[cfg(feature = "std")]
impl std::error::Error for Refusal {}
