//! Each call, with each answer and each refusal.

mod common;

use acpiset::{
    abi, check, check_text, confirm, explanation, find_rsdp, lint, rebuild, show, Advice, Code,
    Fault, Findings, HotPlug, Inputs, Piece, Processors, Refusal, Rule, Settings, Stage, ABI,
};
use common::{text, Image};
use std::thread;

const RSDP: u64 = 0xe0000;
const MADT: u64 = 0x3000;
const SRAT: u64 = 0x4000;
const SLIT: u64 = 0x5000;

/// The set of tests/images that passes all stages.
fn example() -> Image {
    Image::named("example")
}

/// The example with five mistakes: the SLIT's checksum; locality 0's distance to itself, and to locality 1 another one than back;
/// two processors with one APIC ID; a memory range of node 1 that overlaps that of node 0.
fn mistakes() -> Image {
    let mut image = example();
    image.set(SLIT + 44, &[11, 30]);
    image.set(MADT + 55, &[0]);
    image.set(SRAT + 128, &[0, 0, 0, 0x40, 0, 0, 0, 0]);
    image.fix_sum(MADT);
    image.fix_sum(SRAT);
    image
}

fn line(result: Result<Option<Fault>, Refusal>) -> String {
    match result.expect("there is a verdict") {
        Some(fault) => fault.to_string(),
        None => "yes".to_string(),
    }
}

#[test]
fn the_library_has_the_version_of_the_crate() {
    assert_eq!((abi(), ABI), (1, 1));
}

// ---- answers

#[test]
fn a_valid_set_has_no_fault() {
    let image = example();
    let settings = Settings::new(RSDP);
    assert_eq!(check(&image.pieces(), &settings), Ok(None));
    assert_eq!(check_text(text("example").as_bytes(), &settings), Ok(None));
    assert_eq!(find_rsdp(&image.pieces()), Ok(Some(RSDP)));
    let found = lint(&image.pieces(), &settings).unwrap();
    assert_eq!(
        (found.faults.as_slice(), found.to_string().lines().next()),
        (&[][..], Some("yes"))
    );
}

#[test]
fn a_check_reports_the_first_fault_of_its_stages() {
    let mut image = mistakes();
    let settings = Settings::new(RSDP);
    let said = |image: &Image| line(check(&image.pieces(), &settings));
    assert_eq!(said(&image), "3 TableSum 0x3 0x5000 0x0");
    assert_eq!(
        check(&image.pieces(), &settings.through(Stage::Root)),
        Ok(None)
    );
    image.fix_sum(SLIT);
    assert_eq!(said(&image), "10 Overlap 0x50 0x78 0x40000000");
    assert_eq!(
        check(&image.pieces(), &settings.through(Stage::Srat)),
        Ok(None)
    );
    let fault = check(&image.pieces(), &settings).unwrap().unwrap();
    assert_eq!(
        (fault.code, fault.stage()),
        (Code::Overlap, Some(Stage::Ranges))
    );
    assert_eq!(fault, Fault::new(Code::Overlap, 0x50, 0x78, 0x4000_0000));
}

#[test]
fn lint_reports_the_first_fault_of_each_code_and_advice() {
    let image = mistakes();
    let found = lint(&image.pieces(), &Settings::new(RSDP)).unwrap();
    assert_eq!(
        found.to_string(),
        "no 3 TableSum 0x3 0x5000 0x0\n\
         no 10 Overlap 0x50 0x78 0x40000000\n\
         no 11 SlitDiagonal 0x2c 0x0 0x0\n\
         advice FadtOfRevision 0x4 0xf4 0x114\n\
         advice SameApicId 0x34 0x2c 0x0\n\
         advice SameIoApicId 0x48 0x3c 0x0\n\
         advice AffinityNowhere 0x40 0x0 0x1\n\
         advice SlitDiffers 0x2d 0x2e 0x0\n\
         advice NoDsdt 0x28 0x0 0x0\n\
         advice NoPm1Block 0x38 0x0 0x0\n\
         advice HalfBlock 0x4c 0x4 0x0\n\
         advice SciZero 0x2e 0x0 0x0\n\
         advice NoPackage 0x38 0x0 0x0"
    );
    // The last stage that a check goes through is nothing to it.
    assert_eq!(
        lint(
            &image.pieces(),
            &Settings::new(RSDP).through(Stage::from_number(0))
        ),
        Ok(found)
    );
}

#[test]
fn each_fault_that_lint_reports_is_confirmed() {
    let image = mistakes();
    let settings = Settings::new(RSDP);
    let Findings { faults, .. } = lint(&image.pieces(), &settings).unwrap();
    assert!(!faults.is_empty());
    for fault in faults {
        assert_eq!(
            confirm(&image.pieces(), &settings, &fault),
            Ok(true),
            "{fault}"
        );
        assert_eq!(
            confirm(&example().pieces(), &settings, &fault),
            Ok(false),
            "{fault}"
        );
        let beside = Fault::new(
            fault.code,
            fault.at.wrapping_add(1),
            fault.other,
            fault.point,
        );
        assert_eq!(
            confirm(&image.pieces(), &settings, &beside),
            Ok(false),
            "{beside}"
        );
    }
}

#[test]
fn an_rsdp_is_found_where_a_bios_puts_it() {
    let image = example();
    let rsdp = &image
        .0
        .iter()
        .find(|(address, _)| *address == RSDP)
        .unwrap()
        .1;
    for (address, found) in [
        (0xe0000, true),
        (0xffff0, true),
        (0xfffd0, true),
        (0xe0008, false),
        (0x100000, false),
        (0xdfff0, false),
    ] {
        assert_eq!(
            find_rsdp(&[Piece::new(address, rsdp)]),
            Ok(Some(address).filter(|_| found)),
            "{address:#x}"
        );
    }
    assert_eq!(find_rsdp(&[]), Ok(None));
    let two = [Piece::new(0xf0000, rsdp), Piece::new(0xe1230, rsdp)];
    assert_eq!(find_rsdp(&two), Ok(Some(0xe1230)));
}

#[test]
fn images_of_real_firmware_have_the_verdicts_of_the_program() {
    let images = [
        ("sb-q35-default", 0xf59e0, "yes"),
        ("sb-q35-numa4-dist", 0xf59c0, "yes"),
        (
            "sb-pc-nvdimm-numa",
            0xf59d0,
            "10 Overlap 0x90 0xb8 0x100000000",
        ),
        ("ovmf-q35", 0xf77e014, "yes"),
        ("mv-acpi", 0xf4a10, "yes"),
        ("q10-efi-virt-smp4", 0x4f0b0018, "yes"),
        ("q11-efi-virt-caches", 0x47fe0000, "yes"),
        ("sb-q35-hmat", 0xf5990, "yes"),
        ("sb-q35-intel-iommu", 0xf59e0, "yes"),
        ("sb-q35-amd-iommu", 0xf59e0, "yes"),
        ("q102-virt-smmuv3", 0xf5ac0, "yes"),
    ];
    for (name, rsdp, said) in images {
        let settings = Settings::new(rsdp);
        assert_eq!(
            line(check_text(text(name).as_bytes(), &settings)),
            said,
            "{name}"
        );
        assert_eq!(
            line(check(&Image::named(name).pieces(), &settings)),
            said,
            "{name}"
        );
    }
    let found = lint(
        &Image::named("q11-efi-virt-caches").pieces(),
        &Settings::new(0x47fe0000),
    )
    .unwrap();
    assert_eq!(
        found.to_string(),
        "yes\nadvice ListedTwice 0x3 0x2 0x47fc198e"
    );
    let Advice {
        rule,
        at,
        other,
        point,
        ..
    } = found.advice[0];
    assert_eq!(
        (rule, at, other, point),
        (Rule::ListedTwice, 3, 2, 0x47fc_198e)
    );
}

// ---- how an image is passed

#[test]
fn pieces_come_in_any_order_and_size() {
    let image = mistakes();
    let settings = Settings::new(RSDP);
    let (verdict, found) = (
        check(&image.pieces(), &settings),
        lint(&image.pieces(), &settings),
    );
    let mut pieces = image.pieces();
    for _ in 0..pieces.len() {
        pieces.rotate_left(1);
        assert_eq!(check(&pieces, &settings), verdict);
    }
    pieces.reverse();
    assert_eq!(check(&pieces, &settings), verdict);
    for size in [1, 7, 64] {
        let mut small: Vec<_> = image
            .pieces()
            .iter()
            .flat_map(|piece| cut(piece, size))
            .collect();
        small.reverse();
        assert_eq!(
            (check(&small, &settings), &lint(&small, &settings)),
            (verdict, &found),
            "{size}"
        );
    }
}

/// The same bytes in pieces of this size, the last one less.
fn cut<'a>(piece: &Piece<'a>, size: usize) -> Vec<Piece<'a>> {
    let chunks = piece.bytes.chunks(size);
    let addresses = (piece.address..).step_by(size);
    addresses
        .zip(chunks)
        .map(|(address, bytes)| Piece::new(address, bytes))
        .collect()
}

#[test]
fn slices_may_be_empty() {
    let settings = Settings::new(RSDP).inputs(&[]);
    assert_eq!(line(check(&[], &settings)), "1 RsdpOut 0xe0000 0x0 0x0");
    assert_eq!(
        line(check_text(&[], &settings)),
        "1 RsdpOut 0xe0000 0x0 0x0"
    );
    assert_eq!(
        lint(&[], &settings).unwrap().to_string(),
        "no 1 RsdpOut 0xe0000 0x0 0x0"
    );
    assert_eq!(
        confirm(&[], &settings, &Fault::new(Code::RsdpOut, RSDP, 0, 0)),
        Ok(true)
    );
    let image = example();
    let mut pieces = image.pieces();
    for address in [0, RSDP, RSDP + 1, u64::MAX] {
        pieces.push(Piece::new(address, &[]));
        pieces.insert(0, Piece::new(address, &[]));
    }
    assert_eq!(check(&pieces, &settings), Ok(None));
}

#[test]
fn the_last_addresses_can_be_used() {
    let bytes = [0; 20];
    let rsdp = u64::MAX - 19;
    assert_eq!(
        line(check(&[Piece::new(rsdp, &bytes)], &Settings::new(rsdp))),
        format!("1 RsdpSignature {rsdp:#x} 0x0 0x0")
    );
}

// ---- settings

#[test]
fn hot_pluggable_ranges_can_be_apart() {
    let image = Image::named("sb-pc-nvdimm-numa");
    let settings = Settings::new(0xf59d0);
    assert_eq!(
        line(check(&image.pieces(), &settings)),
        "10 Overlap 0x90 0xb8 0x100000000"
    );
    assert_eq!(
        check(&image.pieces(), &settings.hotplug(HotPlug::Apart)),
        Ok(None)
    );
}

#[test]
fn processors_that_can_be_brought_online_can_count() {
    let mut image = example();
    image.set(MADT + 56, &[2]);
    image.set(SRAT + 51, &[1]);
    image.fix_sum(MADT);
    image.fix_sum(SRAT);
    let settings = Settings::new(RSDP);
    assert_eq!(check(&image.pieces(), &settings), Ok(None));
    let usable = check(&image.pieces(), &settings.processors(Processors::Usable)).unwrap();
    assert_eq!(usable.map(|fault| fault.code), Some(Code::TwoDomains));
}

#[test]
fn the_first_number_of_inputs_of_an_address_counts() {
    let image = example();
    let few = Inputs {
        address: 0xfec0_0000,
        count: 24,
    };
    let many = Inputs {
        address: 0xfec0_0000,
        count: 25,
    };
    let said =
        |inputs: &[Inputs]| line(check(&image.pieces(), &Settings::new(RSDP).inputs(inputs)));
    assert_eq!(said(&[few, many]), "yes");
    assert_eq!(said(&[many, few]), "7 GsiClash 0x3c 0x48 0x18");
    assert_eq!(
        line(check(
            &image.pieces(),
            &Settings::new(RSDP).default_inputs(25)
        )),
        "7 GsiClash 0x3c 0x48 0x18"
    );
    assert_eq!(
        line(check(
            &image.pieces(),
            &Settings::new(RSDP).default_inputs(256).inputs(&[few])
        )),
        "yes"
    );
}

// ---- refusals

#[test]
fn settings_out_of_range_are_refused() {
    let settings = Settings::new(RSDP);
    let inputs = |count| {
        [
            Inputs {
                address: 1,
                count: 1,
            },
            Inputs { address: 2, count },
        ]
    };
    let fault = Fault::new(Code::RsdpOut, RSDP, 0, 0);
    for count in [0, 257, u32::MAX] {
        let (default, own) = (settings.default_inputs(count), inputs(count));
        for (settings, refusal) in [
            (default, Refusal::BadDefaultInputs),
            (settings.inputs(&own), Refusal::BadInputs { index: 1 }),
        ] {
            assert_eq!(check(&[], &settings), Err(refusal));
            assert_eq!(check_text(&[], &settings), Err(refusal));
            assert_eq!(confirm(&[], &settings, &fault), Err(refusal));
            assert_eq!(lint(&[], &settings), Err(refusal));
        }
    }
    for stage in [0, 19, u32::MAX] {
        let settings = settings.through(Stage::from_number(stage));
        assert_eq!(check(&[], &settings), Err(Refusal::BadStage));
        assert_eq!(check_text(&[], &settings), Err(Refusal::BadStage));
        assert_eq!(confirm(&[], &settings, &fault), Ok(true));
    }
    for code in [0, 60, 101, 184, u32::MAX] {
        let fault = Fault::new(Code::from_number(code), RSDP, 0, 0);
        assert_eq!(confirm(&[], &settings, &fault), Err(Refusal::BadCode));
    }
    for count in [1, 256] {
        let own = inputs(count);
        assert_eq!(
            line(check(&[], &settings.default_inputs(count).inputs(&own))),
            "1 RsdpOut 0xe0000 0x0 0x0"
        );
    }
}

#[test]
fn pieces_that_make_up_no_image_are_refused() {
    let settings = Settings::new(RSDP);
    let fault = Fault::new(Code::RsdpOut, RSDP, 0, 0);
    let three = [1, 2, 3];
    let first = Piece::new(0x1000, &three);
    let refused = [
        (
            [first, Piece::new(u64::MAX - 1, &three)],
            Refusal::PiecePastEnd { index: 1 },
        ),
        (
            [Piece::new(u64::MAX, &three), first],
            Refusal::PiecePastEnd { index: 0 },
        ),
        (
            [first, Piece::new(0x1002, &three)],
            Refusal::PiecesOverlap {
                index: 1,
                address: 0x1002,
            },
        ),
        (
            [first, Piece::new(0xffe, &three)],
            Refusal::PiecesOverlap {
                index: 1,
                address: 0x1000,
            },
        ),
        (
            [first, first],
            Refusal::PiecesOverlap {
                index: 1,
                address: 0x1000,
            },
        ),
    ];
    for (pieces, refusal) in refused {
        assert_eq!(check(&pieces, &settings), Err(refusal));
        assert_eq!(confirm(&pieces, &settings, &fault), Err(refusal));
        assert_eq!(lint(&pieces, &settings), Err(refusal));
        assert_eq!(find_rsdp(&pieces), Err(refusal));
    }
    let beside = [
        first,
        Piece::new(0x1003, &three),
        Piece::new(0xffd, &three),
        Piece::new(u64::MAX - 2, &three),
    ];
    assert_eq!(find_rsdp(&beside), Ok(None));
}

#[test]
fn texts_that_are_no_image_text_are_refused() {
    let refused = |text: &[u8]| check_text(text, &Settings::new(RSDP)).unwrap_err();
    assert_eq!(refused(b"@0\n01\nx\n"), Refusal::BadLine { line: 3 });
    assert_eq!(
        refused(b"# no address\n01\n"),
        Refusal::NoAddress { line: 2 }
    );
    assert_eq!(
        refused(b"@10\n01 02\n@11\n03"),
        Refusal::TextOverlap { address: 0x11 }
    );
    assert_eq!(
        refused(b"@ffffffffffffffff\n01 02"),
        Refusal::TextPastEnd { line: 2 }
    );
    let mut long = vec![b'#'; 65_536];
    assert_eq!(
        check_text(&long, &Settings::new(RSDP)).map(|fault| fault.is_some()),
        Ok(true)
    );
    long.push(b'#');
    assert_eq!(refused(&long), Refusal::TextTooLong);
    assert_eq!(refused(&vec![b'\n'; 67_108_865]), Refusal::TextTooLong);
}

#[test]
fn refusals_come_in_their_order() {
    let bad = [Inputs {
        address: 0,
        count: 0,
    }];
    let two = [
        Piece::new(u64::MAX, &[1, 2]),
        Piece::new(0, &[1]),
        Piece::new(0, &[1]),
    ];
    let all = Settings::new(RSDP)
        .default_inputs(0)
        .inputs(&bad)
        .through(Stage::from_number(0));
    let fault = Fault::new(Code::from_number(0), 0, 0, 0);
    let told = |settings: &Settings<'_>, pieces: &[Piece<'_>]| {
        (
            check(pieces, settings).unwrap_err(),
            confirm(pieces, settings, &fault).unwrap_err(),
            lint(pieces, settings).unwrap_err(),
        )
    };
    let past_end = Refusal::PiecePastEnd { index: 0 };
    let overlap = Refusal::PiecesOverlap {
        index: 1,
        address: 0,
    };
    assert_eq!(
        told(&all, &two),
        (
            Refusal::BadDefaultInputs,
            Refusal::BadDefaultInputs,
            Refusal::BadDefaultInputs
        )
    );
    let all = all.default_inputs(1);
    let inputs = Refusal::BadInputs { index: 0 };
    assert_eq!(told(&all, &two), (inputs, inputs, inputs));
    let all = all.inputs(&[]);
    assert_eq!(
        told(&all, &two),
        (Refusal::BadStage, Refusal::BadCode, past_end)
    );
    let all = all.through(Stage::Rsdp);
    assert_eq!(told(&all, &two), (past_end, Refusal::BadCode, past_end));
    assert_eq!(told(&all, &two[1..]), (overlap, Refusal::BadCode, overlap));
}

#[test]
fn refusals_are_errors_that_say_what_is_wrong() {
    let error: Box<dyn std::error::Error + Send + Sync> =
        Box::new(check(&[Piece::new(u64::MAX, &[1, 2])], &Settings::new(0)).unwrap_err());
    assert_eq!(
        error.to_string(),
        "the piece at index 0 passes the address 2^64 - 1"
    );
    let overlap = Refusal::PiecesOverlap {
        index: 1,
        address: 0x1002,
    };
    assert_eq!(
        overlap.to_string(),
        "the piece at index 1 and an earlier one share the address 0x1002"
    );
}

// ---- threads

#[test]
fn threads_call_at_the_same_time() {
    fn shared<T: Send + Sync>() {}
    shared::<Piece<'_>>();
    shared::<Settings<'_>>();
    shared::<Findings>();
    shared::<Refusal>();
    let images = [
        example(),
        mistakes(),
        Image::named("sb-pc-nvdimm-numa"),
        Image::named("q11-efi-virt-caches"),
    ];
    let settings = [RSDP, RSDP, 0xf59d0, 0x47fe0000].map(Settings::new);
    let expected: Vec<_> = images
        .iter()
        .zip(&settings)
        .map(|(image, settings)| lint(&image.pieces(), settings))
        .collect();
    thread::scope(|scope| {
        for start in 0..8 {
            let (images, settings, expected) = (&images, &settings, &expected);
            scope.spawn(move || {
                for round in 0..50 {
                    let own = (start + round) % images.len();
                    let pieces = images[own].pieces();
                    assert_eq!(lint(&pieces, &settings[own]), expected[own]);
                    let first = expected[own].as_ref().unwrap().faults.first().copied();
                    assert_eq!(check(&pieces, &settings[own]), Ok(first));
                }
            });
        }
    });
}

#[test]
fn a_set_is_shown() {
    let settings = Settings::new(0xf59e0);
    let image = Image::named("sb-q35-default");
    let path = concat!(
        env!("CARGO_MANIFEST_DIR"),
        "/../../tests/show/images/sb-q35-default.txt"
    );
    let expected = std::fs::read_to_string(path).unwrap();
    assert_eq!(show(&image.pieces(), &settings), Ok(Ok(expected)));

    // A stage after the listed tables has a fault; then the checksum of one of these is wrong.
    let mut faulty = mistakes();
    assert!(show(&faulty.pieces(), &Settings::new(RSDP))
        .unwrap()
        .is_err());
    faulty.fix_sum(SLIT);
    let first = check(&faulty.pieces(), &Settings::new(RSDP))
        .unwrap()
        .unwrap();
    assert_eq!(first.code, Code::Overlap);
    let text = show(&faulty.pieces(), &Settings::new(RSDP))
        .unwrap()
        .unwrap();
    assert!(text.starts_with("rsdp 0xe0000 "), "{text}");
}

#[test]
fn a_set_is_rebuilt() {
    let image = example();
    let settings = Settings::new(RSDP);
    for base in [0, 0x1000_0000, 0x1_0000_0000] {
        let bytes = rebuild(&image.pieces(), &settings, base).unwrap().unwrap();
        let moved = [Piece::new(base, &bytes)];
        let there = Settings::new(base);
        assert_eq!(check(&moved, &there), Ok(None));
        assert_eq!(rebuild(&moved, &there, base), Ok(Ok(bytes.clone())));
        // The tables' addresses change, and nothing else that `show` prints of their entries.
        let entries = |text: String| -> Vec<String> {
            let lines = text.lines().filter(|line| line.starts_with("0x"));
            lines.map(str::to_string).collect()
        };
        let before = entries(show(&image.pieces(), &settings).unwrap().unwrap());
        assert!(before.len() > 5);
        assert_eq!(entries(show(&moved, &there).unwrap().unwrap()), before);
    }
    let fault = rebuild(&mistakes().pieces(), &settings, 0).unwrap();
    assert_eq!(
        Some(fault.unwrap_err()),
        check(&mistakes().pieces(), &settings).unwrap()
    );
    assert_eq!(
        rebuild(&image.pieces(), &settings, 32),
        Err(Refusal::Unaligned)
    );
    let last = 0xffff_ffff_ffff_ffc0;
    assert_eq!(
        rebuild(&image.pieces(), &settings, last),
        Err(Refusal::PastEnd)
    );
}

#[test]
fn a_number_is_explained() {
    let told = explanation(Code::Overlap.number()).unwrap();
    assert!(
        told.starts_with("Wrong: ") && told.contains("\nFix: "),
        "{told}"
    );
    assert!(explanation(Rule::SlitDiffers.number())
        .unwrap()
        .starts_with("Found: "));
    assert_eq!(explanation(60), Ok(String::new()));
}
