//! The reasons an answer can give, and the status code each one carries.

/// Status codes of the gRPC list, as far as the reasons use them.
mod grpc {
    pub const OK: u8 = 0;
    pub const UNKNOWN: u8 = 2;
    pub const INVALID_ARGUMENT: u8 = 3;
    pub const NOT_FOUND: u8 = 5;
    pub const ALREADY_EXISTS: u8 = 6;
    pub const PERMISSION_DENIED: u8 = 7;
    pub const RESOURCE_EXHAUSTED: u8 = 8;
    pub const FAILED_PRECONDITION: u8 = 9;
    pub const ABORTED: u8 = 10;
    pub const OUT_OF_RANGE: u8 = 11;
    pub const UNIMPLEMENTED: u8 = 12;
}

/// Why a call or an update ended as it did. The discriminant is the number
/// that stands in the answer. 24 is free: document 02, request Five.
#[derive(Clone, Copy, Debug, PartialEq, Eq, Hash)]
#[repr(u8)]
pub enum Reason {
    /// Nothing is wrong.
    Done = 0,
    /// The frame is not one of the six commands in their fixed form.
    Malformed = 1,
    /// The answer buffer or the store is too short.
    NoRoom = 2,
    /// OPEN of an open stream.
    AlreadyOpen = 3,
    /// CLOSE or ARBITRATE of a stream that is not open.
    NotOpen = 4,
    /// The device is not the agent's.
    OtherDevice = 5,
    /// The role is over 7.
    UnknownRole = 6,
    /// A bound stream names another device or role.
    OtherBinding = 7,
    /// Another open stream of the role holds the id.
    IdHeld = 8,
    /// Eight streams are bound to the role already.
    RoleCrowded = 9,
    /// The id is not that of a live primary.
    NotPrimary = 10,
    /// CONFIGURE by a role other than the default one.
    NotDefaultRole = 11,
    /// There is no configuration.
    NotConfigured = 12,
    /// Atomicity 2.
    NotSupported = 13,
    /// The rows of a CONFIGURE do not hold together.
    BadRows = 14,
    /// No row has the table.
    UnknownTable = 15,
    /// The table is not the role's.
    NotOwned = 16,
    /// The update or key has not the form its row asks for.
    BadForm = 17,
    /// A value does not fit its width.
    TooWide = 18,
    /// A rule of the kinds or of the priority is broken.
    RuleBroken = 19,
    /// INSERT of a key that is stored.
    KeyPresent = 20,
    /// MODIFY or DELETE of a key that is not stored.
    KeyAbsent = 21,
    /// INSERT into a table that holds its size.
    TableFull = 22,
    /// Some update of an accepted WRITE failed.
    SomeFailed = 23,
    /// An update of a batch with atomicity 1 in which another update failed:
    /// rolled back or never tried.
    BatchFailed = 25,
}

impl Reason {
    /// The number that stands in the answer.
    pub fn number(self) -> u8 {
        self as u8
    }

    /// The status code that stands beside it.
    pub fn code(self) -> u8 {
        match self {
            Reason::Done => grpc::OK,
            Reason::Malformed => grpc::INVALID_ARGUMENT,
            Reason::NoRoom => grpc::RESOURCE_EXHAUSTED,
            Reason::AlreadyOpen => grpc::FAILED_PRECONDITION,
            Reason::NotOpen => grpc::NOT_FOUND,
            Reason::OtherDevice => grpc::NOT_FOUND,
            Reason::UnknownRole => grpc::NOT_FOUND,
            Reason::OtherBinding => grpc::FAILED_PRECONDITION,
            Reason::IdHeld => grpc::INVALID_ARGUMENT,
            Reason::RoleCrowded => grpc::RESOURCE_EXHAUSTED,
            Reason::NotPrimary => grpc::PERMISSION_DENIED,
            Reason::NotDefaultRole => grpc::PERMISSION_DENIED,
            Reason::NotConfigured => grpc::FAILED_PRECONDITION,
            Reason::NotSupported => grpc::UNIMPLEMENTED,
            Reason::BadRows => grpc::INVALID_ARGUMENT,
            Reason::UnknownTable => grpc::NOT_FOUND,
            Reason::NotOwned => grpc::PERMISSION_DENIED,
            Reason::BadForm => grpc::INVALID_ARGUMENT,
            Reason::TooWide => grpc::OUT_OF_RANGE,
            Reason::RuleBroken => grpc::INVALID_ARGUMENT,
            Reason::KeyPresent => grpc::ALREADY_EXISTS,
            Reason::KeyAbsent => grpc::NOT_FOUND,
            Reason::TableFull => grpc::RESOURCE_EXHAUSTED,
            Reason::SomeFailed => grpc::UNKNOWN,
            Reason::BatchFailed => grpc::ABORTED,
        }
    }
}
