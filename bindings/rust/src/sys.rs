//! The functions and structs of `acpiset.h`. All unsafe code of the crate is here.

use crate::lists::{Code, Rule};
use crate::settings::Inputs;
use core::marker::PhantomData;
use core::mem::size_of;

/// The version of the functions and structs that are declared here.
pub const ABI: u32 = 1;

/// The largest number of findings that a library with the codes and rules of this crate reports.
pub const MOST_FINDINGS: usize = Code::ALL.len() + Rule::ALL.len();

/// Bytes of the image. Pointer and length are those of a slice that is borrowed for `'a`.
#[repr(C)]
pub struct Piece<'a> {
    address: u64,
    bytes: *const u8,
    length: usize,
    borrowed: PhantomData<&'a [u8]>,
}

impl<'a> Piece<'a> {
    pub fn new(address: u64, bytes: &'a [u8]) -> Piece<'a> {
        Piece {
            address,
            bytes: bytes.as_ptr(),
            length: bytes.len(),
            borrowed: PhantomData,
        }
    }
}

#[repr(C)]
#[derive(Clone, Copy)]
pub struct Settings {
    pub size: usize,
    pub rsdp: u64,
    pub default_inputs: u32,
    pub hotplug: u32,
    pub processors: u32,
    pub through: u32,
}

#[repr(C)]
#[derive(Clone, Copy, Default)]
pub struct Finding {
    pub number: u32,
    pub at: u64,
    pub other: u64,
    pub point: u64,
}

#[repr(C)]
#[derive(Clone, Copy, Default)]
pub struct Answer {
    pub kind: u32,
    pub stage: u32,
    pub code: u32,
    pub at: u64,
    pub other: u64,
    pub point: u64,
}

// The library is for machines with pointers of 64 bits; there the structs have these sizes.
const _: () = assert!(size_of::<Piece<'static>>() == 24 && size_of::<Inputs>() == 8);
const _: () = assert!(size_of::<Settings>() == 32 && size_of::<Finding>() == 32);
const _: () = assert!(size_of::<Answer>() == 40);

extern "C" {
    fn acpiset_check(
        pieces: *const Piece<'_>,
        pieces_count: usize,
        inputs: *const Inputs,
        inputs_count: usize,
        settings: *const Settings,
    ) -> Answer;
    fn acpiset_check_text(
        text: *const u8,
        length: usize,
        inputs: *const Inputs,
        inputs_count: usize,
        settings: *const Settings,
    ) -> Answer;
    fn acpiset_confirm(
        pieces: *const Piece<'_>,
        pieces_count: usize,
        inputs: *const Inputs,
        inputs_count: usize,
        settings: *const Settings,
        finding: *const Finding,
    ) -> Answer;
    fn acpiset_lint(
        pieces: *const Piece<'_>,
        pieces_count: usize,
        inputs: *const Inputs,
        inputs_count: usize,
        settings: *const Settings,
        findings: *mut Finding,
        findings_count: usize,
    ) -> Answer;
    fn acpiset_find(pieces: *const Piece<'_>, pieces_count: usize) -> Answer;
    fn acpiset_show(
        pieces: *const Piece<'_>,
        pieces_count: usize,
        inputs: *const Inputs,
        inputs_count: usize,
        settings: *const Settings,
        text: *mut u8,
        size: usize,
    ) -> Answer;
    fn acpiset_rebuild(
        pieces: *const Piece<'_>,
        pieces_count: usize,
        inputs: *const Inputs,
        inputs_count: usize,
        settings: *const Settings,
        base: u64,
        bytes: *mut u8,
        size: usize,
    ) -> Answer;
    fn acpiset_explain(number: u32, room: *mut u8, room_count: usize) -> usize;
    fn acpiset_abi() -> u32;
}

/// The version of the linked library.
pub fn abi() -> u32 {
    // SAFETY: the function has no parameters, and is declared this way in each version.
    unsafe { acpiset_abi() }
}

/// A linked library of the version that is declared here. Only `linked` makes one, so no function but `acpiset_abi`
/// is called in a library of another version.
///
/// What each call relies on for safety: the library has the functions and structs as declared here. Each pointer
/// comes from a reference or a slice, which is borrowed until the call returns, and the length beside it is that of
/// the slice. The library keeps no pointer, writes only to `findings`, `text`, `bytes` and
/// `room`, and accepts any values.
#[derive(Clone, Copy)]
pub struct Library(());

impl Library {
    /// The linked library, or its version if that is another one.
    pub fn linked() -> Result<Library, u32> {
        match abi() {
            ABI => Ok(Library(())),
            other => Err(other),
        }
    }

    pub fn check(self, pieces: &[Piece<'_>], inputs: &[Inputs], settings: &Settings) -> Answer {
        // SAFETY: as `Library` says.
        unsafe {
            acpiset_check(
                pieces.as_ptr(),
                pieces.len(),
                inputs.as_ptr(),
                inputs.len(),
                settings,
            )
        }
    }

    pub fn check_text(self, text: &[u8], inputs: &[Inputs], settings: &Settings) -> Answer {
        // SAFETY: as `Library` says.
        unsafe {
            acpiset_check_text(
                text.as_ptr(),
                text.len(),
                inputs.as_ptr(),
                inputs.len(),
                settings,
            )
        }
    }

    pub fn confirm(
        self,
        pieces: &[Piece<'_>],
        inputs: &[Inputs],
        settings: &Settings,
        finding: &Finding,
    ) -> Answer {
        // SAFETY: as `Library` says.
        unsafe {
            acpiset_confirm(
                pieces.as_ptr(),
                pieces.len(),
                inputs.as_ptr(),
                inputs.len(),
                settings,
                finding,
            )
        }
    }

    pub fn lint(
        self,
        pieces: &[Piece<'_>],
        inputs: &[Inputs],
        settings: &Settings,
        findings: &mut [Finding],
    ) -> Answer {
        // SAFETY: as `Library` says. `findings` is borrowed for only this call, so nothing else sees what is written.
        unsafe {
            acpiset_lint(
                pieces.as_ptr(),
                pieces.len(),
                inputs.as_ptr(),
                inputs.len(),
                settings,
                findings.as_mut_ptr(),
                findings.len(),
            )
        }
    }

    pub fn find(self, pieces: &[Piece<'_>]) -> Answer {
        // SAFETY: as `Library` says.
        unsafe { acpiset_find(pieces.as_ptr(), pieces.len()) }
    }

    pub fn show(
        self,
        pieces: &[Piece<'_>],
        inputs: &[Inputs],
        settings: &Settings,
        text: &mut [u8],
    ) -> Answer {
        // SAFETY: as `Library` says. `text` is borrowed for only this call.
        unsafe {
            acpiset_show(
                pieces.as_ptr(),
                pieces.len(),
                inputs.as_ptr(),
                inputs.len(),
                settings,
                text.as_mut_ptr(),
                text.len(),
            )
        }
    }

    pub fn rebuild(
        self,
        pieces: &[Piece<'_>],
        inputs: &[Inputs],
        settings: &Settings,
        base: u64,
        bytes: &mut [u8],
    ) -> Answer {
        // SAFETY: as `Library` says. `bytes` is borrowed for only this call.
        unsafe {
            acpiset_rebuild(
                pieces.as_ptr(),
                pieces.len(),
                inputs.as_ptr(),
                inputs.len(),
                settings,
                base,
                bytes.as_mut_ptr(),
                bytes.len(),
            )
        }
    }

    /// Writes as much of the text as fits, and returns how many bytes it has.
    pub fn explain(self, number: u32, room: &mut [u8]) -> usize {
        // SAFETY: as `Library` says. `room` is borrowed for only this call.
        unsafe { acpiset_explain(number, room.as_mut_ptr(), room.len()) }
    }
}
