//! Tests of what no caller of the crate can see or request.

use crate::refusal::is_yes;
use crate::sys::{self, Library};
use crate::{
    lint, lint_with_room, Code, HotPlug, Piece, Processors, Refusal, Rule, Settings, Severity,
    Stage,
};

/// An RSDP with a wrong checksum that names an RSDT, and an RSDT that lists an address at which nothing is.
const RSDP: &[u8; 20] = b"RSD PTR \x4cAAAAAA\0\0\x10\0\0";
const RSDT: &[u8; 40] = b"RSDT\x28\0\0\0\x01\xe6AAAAAAAAAAAAAA\x01\0\0\0AAAA\x01\0\0\0\0\x20\0\0";
const IMAGE: [Piece<'static>; 2] = [Piece::new(0xe0000, RSDP), Piece::new(0x1000, RSDT)];

fn kind(kind: u32) -> sys::Answer {
    sys::Answer {
        kind,
        at: 7,
        other: 8,
        ..sys::Answer::default()
    }
}

#[test]
fn each_kind_says_something_else() {
    let (index, line, address) = (7, 7, 8);
    let told = [
        Ok(true),
        Ok(false),
        Err(Refusal::OutOfMemory),
        Err(Refusal::BadSize),
        Err(Refusal::BadDefaultInputs),
        Err(Refusal::BadHotPlug),
        Err(Refusal::BadProcessors),
        Err(Refusal::BadStage),
        Err(Refusal::BadInputs { index }),
        Err(Refusal::BadCode),
        Err(Refusal::PiecePastEnd { index }),
        Err(Refusal::PiecesOverlap { index, address }),
        Err(Refusal::BadLine { line }),
        Err(Refusal::NoAddress { line }),
        Err(Refusal::TextOverlap { address }),
        Err(Refusal::TextPastEnd { line }),
        Err(Refusal::TextTooLong),
        Err(Refusal::Unaligned),
        Err(Refusal::TableTooLong),
        Err(Refusal::PastEnd),
        Err(Refusal::NeedsLow),
        Err(Refusal::Unknown {
            kind: 21,
            at: 7,
            other: 8,
        }),
    ];
    for (number, result) in (0..).zip(told) {
        assert_eq!(is_yes(&kind(number)), result);
    }
    let texts: std::collections::BTreeSet<_> = told
        .iter()
        .filter_map(|one| one.err())
        .map(|one| one.to_string())
        .collect();
    assert_eq!(texts.len(), told.len() - 2);
}

/// Settings that the safe calls cannot pass.
#[test]
fn settings_that_are_none_are_refused() {
    let library = Library::linked().expect("the library has this crate's version");
    let (inputs, usual) = Settings::new(0xe0000).raw();
    let refused = |settings: sys::Settings| is_yes(&library.check(&[], inputs, &settings));
    assert_eq!(refused(usual), Ok(false));
    for size in [0, 31, 33, usize::MAX] {
        assert_eq!(
            refused(sys::Settings { size, ..usual }),
            Err(Refusal::BadSize)
        );
    }
    for hotplug in [2, u32::MAX] {
        assert_eq!(
            refused(sys::Settings { hotplug, ..usual }),
            Err(Refusal::BadHotPlug)
        );
    }
    for processors in [2, u32::MAX] {
        assert_eq!(
            refused(sys::Settings {
                processors,
                ..usual
            }),
            Err(Refusal::BadProcessors)
        );
    }
}

#[test]
fn choices_are_what_c_calls_them() {
    let (inputs, usual) = Settings::new(1).raw();
    assert!(inputs.is_empty());
    assert_eq!((usual.size, usual.rsdp, usual.default_inputs), (32, 1, 24));
    assert_eq!((usual.hotplug, usual.processors, usual.through), (0, 0, 18));
    let (_, other) = Settings::new(1)
        .default_inputs(16)
        .hotplug(HotPlug::Apart)
        .processors(Processors::Usable)
        .through(Stage::Facs)
        .raw();
    assert_eq!(
        (
            other.default_inputs,
            other.hotplug,
            other.processors,
            other.through
        ),
        (16, 1, 1, 5)
    );
}

#[test]
fn names_and_numbers_go_together() {
    for (number, &stage) in (1..).zip(Stage::ALL) {
        assert_eq!(
            (stage.number(), Stage::from_number(number)),
            (number, stage)
        );
    }
    for (number, &code) in (1..).zip(Code::ALL) {
        assert_eq!((code.number(), Code::from_number(number)), (number, code));
    }
    // The numbers of rules may have gaps.
    for &rule in Rule::ALL {
        assert_eq!(Rule::from_number(rule.number()), rule);
    }
    let numbers: Vec<_> = Rule::ALL.iter().map(|rule| rule.number()).collect();
    assert!(numbers.windows(2).all(|two| two[0] < two[1]));
    assert_eq!((numbers.first(), numbers.last()), (Some(&101), Some(&311)));
    assert_eq!(Code::from_number(99), Code::Unknown { number: 99 });
    assert_eq!(Code::from_number(99).to_string(), "Unknown(99)");
    assert_eq!(
        (Code::from_number(0).stage(), Code::TableSum.stage()),
        (None, Some(Stage::Tables))
    );
    let severities = [128, 123, 101, 1000].map(|number| Rule::from_number(number).severity());
    let expected = [
        Severity::NotLookedAt,
        Severity::LookAtIt,
        Severity::LikelyWrong,
    ]
    .map(Some);
    assert_eq!((&severities[..3], severities[3]), (&expected[..], None));
    assert_eq!(
        (Stage::Leaves.to_string(), format!("{:>5}", Stage::Rsdp)),
        ("Leaves".into(), " Rsdp".into())
    );
}

/// The stage of an answer is that of its code.
#[test]
fn the_library_and_the_lists_agree_on_stages() {
    let library = Library::linked().expect("the library has this crate's version");
    let found = lint(&IMAGE, &Settings::new(0xe0000)).expect("there is a verdict");
    assert_eq!(found.faults.len(), 3);
    for last in Stage::ALL {
        let (inputs, settings) = Settings::new(0xe0000).through(*last).raw();
        let pieces = IMAGE.map(|piece| sys::Piece::new(piece.address, piece.bytes));
        let answer = library.check(&pieces, inputs, &settings);
        assert_eq!(Code::from_number(answer.code), Code::RsdpSum);
        assert_eq!(
            Some(Stage::from_number(answer.stage)),
            Code::RsdpSum.stage()
        );
    }
}

/// A library with more codes than this crate knows has more findings than there is room for at first.
#[test]
fn findings_that_do_not_fit_are_asked_for_again() {
    let settings = Settings::new(0xe0000);
    let found = lint(&IMAGE, &settings);
    for room in 0..4 {
        assert_eq!(lint_with_room(&IMAGE, &settings, room), found);
    }
}
