//! The table of reasons and codes.

use reference::Reason;

#[test]
fn every_reason_has_its_code() {
    let listed = [
        (Reason::Done, 0, 0),
        (Reason::Malformed, 1, 3),
        (Reason::NoRoom, 2, 8),
        (Reason::AlreadyOpen, 3, 9),
        (Reason::NotOpen, 4, 5),
        (Reason::OtherDevice, 5, 5),
        (Reason::UnknownRole, 6, 5),
        (Reason::OtherBinding, 7, 9),
        (Reason::IdHeld, 8, 3),
        (Reason::RoleCrowded, 9, 8),
        (Reason::NotPrimary, 10, 7),
        (Reason::NotDefaultRole, 11, 7),
        (Reason::NotConfigured, 12, 9),
        (Reason::NotSupported, 13, 12),
        (Reason::BadRows, 14, 3),
        (Reason::UnknownTable, 15, 5),
        (Reason::NotOwned, 16, 7),
        (Reason::BadForm, 17, 3),
        (Reason::TooWide, 18, 11),
        (Reason::RuleBroken, 19, 3),
        (Reason::KeyPresent, 20, 6),
        (Reason::KeyAbsent, 21, 5),
        (Reason::TableFull, 22, 8),
        (Reason::SomeFailed, 23, 2),
        (Reason::BatchFailed, 25, 10),
    ];
    for (reason, number, code) in listed {
        assert_eq!((reason.number(), reason.code()), (number, code));
    }
    // 24 is free: document 02, request Five.
    let numbers = listed.map(|(_, number, _)| number);
    assert!(numbers.into_iter().eq((0..=23).chain([25])));
}
