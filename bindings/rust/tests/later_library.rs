//! How the crate handles a library of a later version. `tests/library/rust.sh` of the repository builds two such
//! libraries (later_library.c), and runs each of these tests with the one that it names.

use acpiset::{
    abi, check, check_text, confirm, find_rsdp, lint, rebuild, show, Code, Fault, Refusal, Rule,
    Settings, ABI,
};

const SETTINGS: Settings<'static> = Settings::new(0xe0000);
const FAULT: Fault = Fault::new(Code::TableSum, 0, 0x1000, 0);

#[test]
#[ignore = "needs a library of version 2"]
fn version_2_is_refused() {
    assert_eq!((abi(), ABI), (2, 1));
    let refusal = Refusal::OtherVersion { abi: 2 };
    assert_eq!(check(&[], &SETTINGS), Err(refusal));
    assert_eq!(check_text(&[], &SETTINGS), Err(refusal));
    assert_eq!(confirm(&[], &SETTINGS, &FAULT), Err(refusal));
    assert_eq!(lint(&[], &SETTINGS), Err(refusal));
    assert_eq!(find_rsdp(&[]), Err(refusal));
    assert_eq!(show(&[], &SETTINGS), Err(refusal));
    assert_eq!(rebuild(&[], &SETTINGS, 0), Err(refusal));
    assert_eq!(
        refusal.to_string(),
        "the linked libacpiset has version 2 of its interface, not 1"
    );
}

#[test]
#[ignore = "needs a later library of version 1"]
fn numbers_of_a_later_library_are_kept() {
    assert_eq!((abi(), ABI), (1, 1));

    let fault = check(&[], &SETTINGS).unwrap().unwrap();
    assert!(matches!(fault.code, Code::Unknown { number: 60, .. }));
    assert_eq!(
        (fault.stage(), fault.to_string()),
        (None, "? Unknown(60) 0x1 0x2 0x3".to_string())
    );

    let refusal = check_text(&[], &SETTINGS).unwrap_err();
    assert!(matches!(
        refusal,
        Refusal::Unknown {
            kind: 77,
            at: 5,
            other: 6,
            ..
        }
    ));

    assert_eq!(confirm(&[], &SETTINGS, &FAULT), Err(Refusal::BadSize));
    assert_eq!(find_rsdp(&[]), Err(Refusal::OutOfMemory));
    assert!(matches!(
        show(&[], &SETTINGS),
        Err(Refusal::Unknown { kind: 78, .. })
    ));
    assert_eq!(rebuild(&[], &SETTINGS, 0), Ok(Err(fault)));
}

#[test]
#[ignore = "needs a later library of version 1"]
fn all_findings_of_a_later_library_are_reported() {
    let found = lint(&[], &SETTINGS).unwrap();
    let codes: Vec<_> = found
        .faults
        .iter()
        .map(|fault| (fault.code.number(), fault.at))
        .collect();
    let rules: Vec<_> = found
        .advice
        .iter()
        .map(|advice| (advice.rule.number(), advice.at))
        .collect();
    assert_eq!(
        codes,
        (0..70)
            .map(|own| (own + 1, u64::from(own)))
            .collect::<Vec<_>>()
    );
    assert_eq!(
        rules,
        (70..170)
            .map(|own| (own + if own < 154 { 31 } else { 847 }, u64::from(own)))
            .collect::<Vec<_>>()
    );
    assert!(matches!(
        found.advice[99].rule,
        Rule::Unknown { number: 1016, .. }
    ));
}
