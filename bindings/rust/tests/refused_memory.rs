//! Failed allocations of the crate itself. The library allocates with `malloc`, not from here.

use acpiset::{
    check, check_text, confirm, find_rsdp, lint, rebuild, show, Code, Fault, Piece, Refusal,
    Settings,
};
use std::alloc::{GlobalAlloc, Layout, System};
use std::cell::Cell;
use std::fmt::Debug;
use std::ptr::null_mut;

/// Lets as many allocations of a thread succeed as `LEFT` says.
struct Refusing;

thread_local! {
    static LEFT: Cell<usize> = const { Cell::new(usize::MAX) };
}

fn is_granted() -> bool {
    let grant = |left: &Cell<usize>| {
        let is_one_left = left.get() > 0;
        left.set(left.get().saturating_sub(1));
        is_one_left
    };
    LEFT.try_with(grant).unwrap_or(true)
}

// SAFETY: blocks are those of `System`, and a failed allocation returns no block.
unsafe impl GlobalAlloc for Refusing {
    unsafe fn alloc(&self, layout: Layout) -> *mut u8 {
        if is_granted() {
            System.alloc(layout)
        } else {
            null_mut()
        }
    }

    unsafe fn dealloc(&self, block: *mut u8, layout: Layout) {
        System.dealloc(block, layout);
    }
}

#[global_allocator]
static ALLOCATOR: Refusing = Refusing;

/// Asserts that a call makes this number of allocations, and returns `OutOfMemory` if one of them fails.
#[track_caller]
fn assert_refused<T: Debug>(requests: usize, call: impl Fn() -> Result<T, Refusal>) {
    for granted in 0..=requests {
        LEFT.with(|left| left.set(granted));
        let result = call();
        LEFT.with(|left| left.set(usize::MAX));
        match result {
            Ok(_) => assert_eq!(granted, requests),
            Err(refusal) => assert!(
                refusal == Refusal::OutOfMemory && granted < requests,
                "{refusal} with {granted} requests granted"
            ),
        }
    }
}

#[test]
fn refused_memory_is_a_refusal() {
    // An RSDP that names an RSDT, and an RSDT that lists an address twice at which nothing is: two faults, and advice.
    let rsdp = *b"RSD PTR \x4bAAAAAA\0\0\x10\0\0";
    let rsdt = *b"RSDT\x2c\0\0\0\x01\xc2AAAAAAAAAAAAAA\x01\0\0\0AAAA\x01\0\0\0\0\x20\0\0\0\x20\0\0";
    let image = [Piece::new(0xe0000, &rsdp), Piece::new(0x1000, &rsdt)];
    // The same RSDP, and an RSDT that lists nothing.
    let empty = *b"RSDT\x24\0\0\0\x01\x0aAAAAAAAAAAAAAA\x01\0\0\0AAAA\x01\0\0\0";
    let whole = [Piece::new(0xe0000, &rsdp), Piece::new(0x1000, &empty)];
    let settings = Settings::new(0xe0000);
    let found = lint(&image, &settings).unwrap();
    assert_eq!((found.faults.len(), found.advice.len()), (2, 1));

    assert_refused(1, || check(&image, &settings));
    assert_refused(1, || {
        confirm(&image, &settings, &Fault::new(Code::NoFadt, 0, 0, 0))
    });
    assert_refused(1, || find_rsdp(&image));
    assert_refused(1, || show(&image, &settings));
    // the list of pieces and the text
    assert_refused(2, || show(&whole, &settings));
    assert_refused(1, || rebuild(&whole, &settings, 0));
    assert_refused(0, || check_text(b"@e0000\n52", &settings));
    // the list of pieces, the findings, the faults and the advice
    assert_refused(4, || lint(&image, &settings));
}
