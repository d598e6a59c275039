//! Why a call was refused, and the status code that goes with it.

use std::error::Error;
use std::fmt;

/// Why a call, or an update of a WRITE, was refused.
///
/// The discriminant is the number that stands in the answer, and [`Display`](fmt::Display) gives
/// the condition in a few words. Later commands may add reasons. There is no 24: it was for a full
/// store, where every table is full and 22 is given.
///
/// ```
/// use savorylatch::{Code, Reason};
///
/// let reason = Reason::try_from(10)?;
/// assert_eq!(reason, Reason::NotPrimary);
/// assert_eq!(reason.code(), Code::PermissionDenied);
/// assert_eq!(reason.to_string(), "id unset, or no primary, or not the mark");
/// # Ok::<(), savorylatch::UnknownNumber>(())
/// ```
#[derive(Clone, Copy, Debug, PartialEq, Eq, Hash)]
#[repr(u8)]
#[non_exhaustive]
pub enum Reason {
    /// Not refused.
    Done = 0,

    /// The frame is not one of the agent: unknown command, wrong length, or an operand out of range.
    BadFrame = 1,
    /// The answer buffer or the store is too short. Nothing was written: there is no answer.
    TooShort = 2,
    /// OPEN of an open stream.
    AlreadyOpen = 3,
    /// CLOSE or ARBITRATE of a stream that is not open.
    NotOpen = 4,

    /// Another device. From an ARBITRATE it closes the stream, as the next four do.
    OtherDevice = 5,
    /// A role over 7.
    NoSuchRole = 6,
    /// The stream is bound to another device or role.
    Rebound = 7,
    /// Another open stream of the role holds the id.
    IdInUse = 8,
    /// Eight streams are bound to the role already.
    RoleFull = 9,

    /// The id is unset, or the role has no primary, or the id is not the mark.
    NotPrimary = 10,
    /// CONFIGURE by a role other than 0.
    NotRole0 = 11,
    /// There is no configuration.
    NotConfigured = 12,
    /// Atomicity 2, which the agent does not have.
    Atomicity = 13,
    /// The rows of a CONFIGURE are not allowed.
    RowsNotAllowed = 14,

    /// No row has the table.
    NoSuchTable = 15,
    /// The table is not the role's.
    NotTheRoles = 16,
    /// An update, slot, value or action is not well formed. A DELETE's action is not looked at.
    BadForm = 17,
    /// A value, other than a prefix length, is not below 2 to its width. A DELETE's parameters
    /// are not looked at.
    TooWide = 18,
    /// A rule of the match kinds or of the priority is broken.
    RuleBroken = 19,
    /// INSERT while a stored entry has the key.
    Stored = 20,
    /// MODIFY or DELETE while no stored entry has the key.
    NotStored = 21,
    /// INSERT, and the table holds its size.
    TableFull = 22,
    /// An update of the WRITE failed; the pairs say which and why. With
    /// [`ContinueOnError`](crate::frame::Atomicity::ContinueOnError) the others took effect, with
    /// [`RollbackOnError`](crate::frame::Atomicity::RollbackOnError) none did.
    SomeFailed = 23,
    /// Another update of the atomic batch failed: this one was undone, or never tried.
    RolledBack = 25,
}

impl Reason {
    /// All reasons, by rising number.
    pub const ALL: &'static [Reason] = &[
        Reason::Done,
        Reason::BadFrame,
        Reason::TooShort,
        Reason::AlreadyOpen,
        Reason::NotOpen,
        Reason::OtherDevice,
        Reason::NoSuchRole,
        Reason::Rebound,
        Reason::IdInUse,
        Reason::RoleFull,
        Reason::NotPrimary,
        Reason::NotRole0,
        Reason::NotConfigured,
        Reason::Atomicity,
        Reason::RowsNotAllowed,
        Reason::NoSuchTable,
        Reason::NotTheRoles,
        Reason::BadForm,
        Reason::TooWide,
        Reason::RuleBroken,
        Reason::Stored,
        Reason::NotStored,
        Reason::TableFull,
        Reason::SomeFailed,
        Reason::RolledBack,
    ];

    /// The number that stands in the answer.
    pub const fn number(self) -> u8 {
        self as u8
    }

    /// A short name for logs and scripts: that of the C header's constant, in small letters.
    ///
    /// ```
    /// use savorylatch::Reason;
    ///
    /// assert_eq!(Reason::NotPrimary.name(), "not-primary");
    /// ```
    pub const fn name(self) -> &'static str {
        match self {
            Reason::Done => "done",
            Reason::BadFrame => "bad-frame",
            Reason::TooShort => "too-short",
            Reason::AlreadyOpen => "already-open",
            Reason::NotOpen => "not-open",
            Reason::OtherDevice => "other-device",
            Reason::NoSuchRole => "no-such-role",
            Reason::Rebound => "rebound",
            Reason::IdInUse => "id-in-use",
            Reason::RoleFull => "role-full",
            Reason::NotPrimary => "not-primary",
            Reason::NotRole0 => "not-role-0",
            Reason::NotConfigured => "not-configured",
            Reason::Atomicity => "atomicity",
            Reason::RowsNotAllowed => "rows-not-allowed",
            Reason::NoSuchTable => "no-such-table",
            Reason::NotTheRoles => "not-the-roles",
            Reason::BadForm => "bad-form",
            Reason::TooWide => "too-wide",
            Reason::RuleBroken => "rule-broken",
            Reason::Stored => "stored",
            Reason::NotStored => "not-stored",
            Reason::TableFull => "table-full",
            Reason::SomeFailed => "some-failed",
            Reason::RolledBack => "rolled-back",
        }
    }

    /// The status code that goes with the reason.
    pub const fn code(self) -> Code {
        match self {
            Reason::Done => Code::Ok,
            Reason::SomeFailed => Code::Unknown,
            Reason::BadFrame
            | Reason::IdInUse
            | Reason::RowsNotAllowed
            | Reason::BadForm
            | Reason::RuleBroken => Code::InvalidArgument,
            Reason::NotOpen
            | Reason::OtherDevice
            | Reason::NoSuchRole
            | Reason::NoSuchTable
            | Reason::NotStored => Code::NotFound,
            Reason::Stored => Code::AlreadyExists,
            Reason::NotPrimary | Reason::NotRole0 | Reason::NotTheRoles => Code::PermissionDenied,
            Reason::TooShort | Reason::RoleFull | Reason::TableFull => Code::ResourceExhausted,
            Reason::AlreadyOpen | Reason::Rebound | Reason::NotConfigured => {
                Code::FailedPrecondition
            }
            Reason::RolledBack => Code::Aborted,
            Reason::TooWide => Code::OutOfRange,
            Reason::Atomicity => Code::Unimplemented,
        }
    }

    /// Was the call accepted? So it was under [`Done`](Reason::Done) and, being a WRITE that was not
    /// refused, under [`SomeFailed`](Reason::SomeFailed).
    pub const fn is_accepted(self) -> bool {
        matches!(self, Reason::Done | Reason::SomeFailed)
    }
}

/// Each reason at the place of its number. A number that is free has none.
const BY_NUMBER: [Option<Reason>; 26] = {
    let mut places = [None; 26];
    let mut at = 0;
    while at < Reason::ALL.len() {
        let reason = Reason::ALL[at];
        places[reason as usize] = Some(reason);
        at += 1;
    }
    places
};

impl TryFrom<u8> for Reason {
    type Error = UnknownNumber;

    fn try_from(number: u8) -> Result<Reason, UnknownNumber> {
        let reason = BY_NUMBER.get(usize::from(number)).copied().flatten();
        reason.ok_or(UnknownNumber(number))
    }
}

impl fmt::Display for Reason {
    fn fmt(&self, f: &mut fmt::Formatter<'_>) -> fmt::Result {
        f.pad(match self {
            Reason::Done => "done",
            Reason::BadFrame => "not a frame of the agent",
            Reason::TooShort => "answer buffer or store too short",
            Reason::AlreadyOpen => "OPEN of an open stream",
            Reason::NotOpen => "CLOSE or ARBITRATE of a stream that is not open",
            Reason::OtherDevice => "other device",
            Reason::NoSuchRole => "role over 7",
            Reason::Rebound => "stream bound to another device or role",
            Reason::IdInUse => "id held by another open stream of the role",
            Reason::RoleFull => "eight streams bound to the role already",
            Reason::NotPrimary => "id unset, or no primary, or not the mark",
            Reason::NotRole0 => "CONFIGURE by role 1 to 7",
            Reason::NotConfigured => "no configuration",
            Reason::Atomicity => "atomicity 2",
            Reason::RowsNotAllowed => "configuration not allowed",
            Reason::NoSuchTable => "unknown table",
            Reason::NotTheRoles => "table not the role's",
            Reason::BadForm => "update, slot, value or action not well formed",
            Reason::TooWide => "value not below 2 to its width",
            Reason::RuleBroken => "rule of the kinds or of the priority broken",
            Reason::Stored => "INSERT while a stored entry has the key",
            Reason::NotStored => "MODIFY or DELETE while no stored entry has the key",
            Reason::TableFull => "INSERT while the table holds its size",
            Reason::SomeFailed => "some update failed",
            Reason::RolledBack => "another update of the atomic batch failed",
        })
    }
}

/// The status codes of the gRPC list that go with the reasons.
///
/// The discriminant is the number in that list, and [`Display`](fmt::Display) gives the name there.
///
/// ```
/// use savorylatch::Code;
///
/// assert_eq!(Code::PermissionDenied as u8, 7);
/// assert_eq!(Code::PermissionDenied.to_string(), "PERMISSION_DENIED");
/// ```
#[derive(Clone, Copy, Debug, PartialEq, Eq, Hash)]
#[repr(u8)]
#[non_exhaustive]
pub enum Code {
    /// OK
    Ok = 0,
    /// UNKNOWN
    Unknown = 2,
    /// INVALID_ARGUMENT
    InvalidArgument = 3,
    /// NOT_FOUND
    NotFound = 5,
    /// ALREADY_EXISTS
    AlreadyExists = 6,
    /// PERMISSION_DENIED
    PermissionDenied = 7,
    /// RESOURCE_EXHAUSTED
    ResourceExhausted = 8,
    /// FAILED_PRECONDITION
    FailedPrecondition = 9,
    /// ABORTED
    Aborted = 10,
    /// OUT_OF_RANGE
    OutOfRange = 11,
    /// UNIMPLEMENTED
    Unimplemented = 12,
}

impl Code {
    /// The number in the gRPC list.
    pub const fn number(self) -> u8 {
        self as u8
    }
}

impl TryFrom<u8> for Code {
    type Error = UnknownNumber;

    fn try_from(number: u8) -> Result<Code, UnknownNumber> {
        // Every code goes with a reason.
        let mut codes = Reason::ALL.iter().map(|reason| reason.code());
        let code = codes.find(|code| code.number() == number);
        code.ok_or(UnknownNumber(number))
    }
}

impl fmt::Display for Code {
    fn fmt(&self, f: &mut fmt::Formatter<'_>) -> fmt::Result {
        f.pad(match self {
            Code::Ok => "OK",
            Code::Unknown => "UNKNOWN",
            Code::InvalidArgument => "INVALID_ARGUMENT",
            Code::NotFound => "NOT_FOUND",
            Code::AlreadyExists => "ALREADY_EXISTS",
            Code::PermissionDenied => "PERMISSION_DENIED",
            Code::ResourceExhausted => "RESOURCE_EXHAUSTED",
            Code::FailedPrecondition => "FAILED_PRECONDITION",
            Code::Aborted => "ABORTED",
            Code::OutOfRange => "OUT_OF_RANGE",
            Code::Unimplemented => "UNIMPLEMENTED",
        })
    }
}

/// A number that is no [`Reason`], or no [`Code`] of one.
#[derive(Clone, Copy, Debug, PartialEq, Eq)]
pub struct UnknownNumber(
    /// The number.
    pub u8,
);

impl fmt::Display for UnknownNumber {
    fn fmt(&self, f: &mut fmt::Formatter<'_>) -> fmt::Result {
        write!(f, "{} is no reason or code of the agent", self.0)
    }
}

impl Error for UnknownNumber {}

#[cfg(test)]
mod tests {
    use super::*;

    #[test]
    fn numbers_and_codes_are_the_documents() {
        // By rising reason: 0 to 23 of document 01, 25 of document 02.
        const CODES: [u8; 25] = [
            0, 3, 8, 9, 5, 5, 5, 9, 3, 8, 7, 7, 9, 12, 3, 5, 7, 3, 11, 3, 6, 5, 8, 2, 10,
        ];
        assert_eq!(Reason::ALL.len(), CODES.len());
        for (number, code) in (0..24).chain([25]).zip(CODES) {
            let reason = Reason::try_from(number).unwrap();
            assert_eq!(reason.number(), number);
            assert_eq!(reason.code().number(), code, "{reason:?}");
            assert_eq!(Code::try_from(code), Ok(reason.code()));
            assert_eq!(reason.is_accepted(), [0, 23].contains(&number));
        }
    }

    #[test]
    fn names_are_the_header_s() {
        let header = include_str!("../../../c/include/savorylatch.h");
        for reason in Reason::ALL {
            let constant = reason.name().replace('-', "_").to_uppercase();
            let line = format!("SAVORYLATCH_REASON_{constant} = {}", reason.number());
            let ends = [",", " "].map(|end| header.contains(&(line.clone() + end)));
            assert!(ends.contains(&true), "{line}");
        }
        // And it has no others.
        let constants = header.lines().filter(|line| {
            let line = line.trim_start();
            line.starts_with("SAVORYLATCH_REASON_")
        });
        assert_eq!(constants.count(), Reason::ALL.len());
    }

    #[test]
    fn other_numbers_are_unknown() {
        // 24 is free: document 02, request Five.
        for number in [24, 26, 27, 255] {
            assert_eq!(Reason::try_from(number), Err(UnknownNumber(number)));
        }
        for number in [1, 4, 13, 255] {
            assert_eq!(Code::try_from(number), Err(UnknownNumber(number)));
        }
    }

    #[test]
    fn names_are_shown_in_columns_too() {
        assert_eq!(format!("{:>9}|", Code::Unknown), "  UNKNOWN|");
        assert_eq!(format!("{:6}|", Reason::Done), "done  |");
    }
}
