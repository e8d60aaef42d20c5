//! What a call answers, with the numbers of document 01.

use core::fmt;

/// Why a call did nothing: no byte of any buffer was touched.
#[derive(Clone, Copy, Debug, PartialEq, Eq)]
#[non_exhaustive]
pub enum Refusal {
    /// 1 of a query, of a report or of a request to join: OTAPVer is not 1. Of a commit it is an [`Outcome`], which has a reply, and so are 3 and 4.
    WrongVersion,
    /// 3 of a request to join: a setting's type is not among the thirteen.
    UnknownType,
    /// 4 of a query, of a report or of requests to join: a field, a length or a count is wrong.
    BadField,
    /// 10: the reply buffer has fewer than 20 bytes.
    ReplyShort,
    /// 11: the bytes lent are not as many as the set's store has, or not a store; of a desk, not an area.
    NotAStore,
    /// 12: the message has fewer than 7 bytes or more than the set takes, 4,096 of a hand-held and 8,192 of a vehicle, or two would have more when joined.
    MessageLength,
    /// 13: a carrier field or the stated length is wrong.
    WrongCarrier,
    /// 14: the message is not of the type that the call takes: a request or a result query to commit, a query to report on, a report to read, a request to join.
    WrongMessageType,
    /// 15: the scratch has fewer than 36 bytes, of a desk 64, the export, report, join or proposal buffer fewer than the set's longest message, or the digits buffer fewer than 18.
    BufferShort,
    /// 16 of an export: there is no such part; a [`Part`](crate::Part) is always one.
    NoSuchPart,
    /// 16 of [`Store::report`](crate::Store::report): the report has no message of this index.
    NoSuchMessage,
    /// 17 of the screen: there is no such row, or it is a background group's, which is not shown.
    NoSuchRow,
    /// 17 of [`Store::entry`](crate::Store::entry), its digits and a channel: nothing stands there.
    NothingThere,
    /// 18 of a desk: the request would be taken, but passes the area's end.
    AreaFull,
    /// 19 of a proposal: the tables of no part of an export differ, or those of several.
    NoSinglePart,
    /// 20 of a conversion: the dialled number is outside the plan.
    OutsidePlan,
    /// 20 of [`Store::line_of`](crate::Store::line_of): the caller's number has no digits, more than 18, or a digit above 9.
    BadNumber,
    /// 21: the address is outside its kind's plan.
    OutsideKind,
    /// 22: there is no such channel.
    NoSuchChannel,
    /// A number that document 01 does not list; the archive's contracts allow none.
    Unlisted(u8),
}

const LISTED: [(u8, Refusal, &str); 19] = [
    (1, Refusal::WrongVersion, "OTAPVer is not 1"),
    (3, Refusal::UnknownType, "a setting's type is not known"),
    (4, Refusal::BadField, "a field, a length or a count is wrong"),
    (10, Refusal::ReplyShort, "the reply buffer is under 20 bytes"),
    (11, Refusal::NotAStore, "the bytes lent are not a store"),
    (12, Refusal::MessageLength, "the message is too short or too long"),
    (13, Refusal::WrongCarrier, "a carrier field or the length is wrong"),
    (14, Refusal::WrongMessageType, "the message is not of the type that the call takes"),
    (15, Refusal::BufferShort, "the buffer lent is too short"),
    (16, Refusal::NoSuchPart, "there is no such part"),
    (16, Refusal::NoSuchMessage, "the report has no such message"),
    (17, Refusal::NoSuchRow, "there is no such row"),
    (17, Refusal::NothingThere, "nothing stands there"),
    (18, Refusal::AreaFull, "the request passes the area's end"),
    (19, Refusal::NoSinglePart, "the tables of no part differ, or those of several"),
    (20, Refusal::OutsidePlan, "the dialled number is outside the plan"),
    (20, Refusal::BadNumber, "the caller's number is not 1 to 18 digits"),
    (21, Refusal::OutsideKind, "the address is outside its kind's plan"),
    (22, Refusal::NoSuchChannel, "there is no such channel"),
];

impl Refusal {
    /// The number of document 01.
    pub fn number(self) -> u8 {
        match self {
            Refusal::Unlisted(number) => number,
            listed => LISTED.iter().find(|row| row.1 == listed).map_or(0, |row| row.0),
        }
    }

    /// Of two with one number the first; the call that means the other says so itself. Out of line, so that an answer of 0 does not pay for the list.
    #[cold]
    #[inline(never)]
    pub(crate) fn from_number(number: u8) -> Refusal {
        LISTED.iter().find(|row| row.0 == number).map_or(Refusal::Unlisted(number), |row| row.1)
    }

    /// As `from_number`, for the calls that answer nothing else.
    pub(crate) fn from_word(number: u32) -> Refusal {
        Refusal::from_number(u8::try_from(number).unwrap_or(u8::MAX))
    }
}

impl fmt::Display for Refusal {
    fn fmt(&self, to: &mut fmt::Formatter) -> fmt::Result {
        let said = LISTED.iter().find(|row| row.1 == *self).map_or("not listed", |row| row.2);
        write!(to, "{}: {said}", self.number())
    }
}

impl core::error::Error for Refusal {}

/// What a message came to, or, where it was only judged, what it would come to.
#[derive(Clone, Copy, Debug, PartialEq, Eq)]
pub enum Outcome {
    /// 0: the request was taken, or the query matches the hash kept.
    Taken,
    /// 1: OTAPVer is not 1.
    WrongVersion,
    /// 2: a table is full, or all texts after a setting are over the bytes that they share, [`Set::TEXT_BYTES`](crate::Set::TEXT_BYTES).
    NoRoom,
    /// 3: a setting's type is not among the thirteen.
    UnknownType,
    /// 4: a field, a length or a count is wrong.
    BadField,
    /// 5: the query asks for no hash, or not for the one kept.
    NoMatch,
    /// 10 to 14, and 18 of a desk: nothing was touched and there is no reply.
    Refused(Refusal),
}

impl Outcome {
    /// The number of document 01.
    pub fn number(self) -> u8 {
        match self {
            Outcome::Taken => 0,
            Outcome::WrongVersion => 1,
            Outcome::NoRoom => 2,
            Outcome::UnknownType => 3,
            Outcome::BadField => 4,
            Outcome::NoMatch => 5,
            Outcome::Refused(refusal) => refusal.number(),
        }
    }

    fn from_number(number: u8) -> Outcome {
        match number {
            0 => Outcome::Taken,
            1 => Outcome::WrongVersion,
            2 => Outcome::NoRoom,
            3 => Outcome::UnknownType,
            4 => Outcome::BadField,
            5 => Outcome::NoMatch,
            other => Outcome::Refused(Refusal::from_number(other)),
        }
    }
}

/// The answer to a message. [`Store::judge`](crate::Store::judge) gives the one that committing would give, and the same reply.
///
/// Only a request that was committed, and came to [`Outcome::Taken`], changed the store.
#[derive(Clone, Copy, Debug, PartialEq, Eq)]
pub struct Answer<'r> {
    /// What the message came to.
    pub outcome: Outcome,
    /// The first setting at fault, counted from 1; 0 where none is named.
    pub failed_id: u8,
    /// Whether the reply is to be sent, once the message is committed.
    pub send: bool,
    /// Whether the set is to be started again, once the message is committed.
    pub reboot: bool,
    /// The reply, at the start of the buffer lent; empty where nothing was touched.
    pub reply: &'r [u8],
}

impl<'r> Answer<'r> {
    /// The number of document 01.
    pub fn number(&self) -> u8 {
        self.outcome.number()
    }

    pub(crate) fn unpack(packed: u64, reply: &'r [u8]) -> Answer<'r> {
        let length = byte(packed, 24);
        Answer {
            outcome: Outcome::from_number(byte(packed, 0)),
            failed_id: byte(packed, 8),
            send: bit(packed, 16),
            reboot: bit(packed, 17),
            // The archive's contracts say that the length is within the buffer; `get` does not rely on it.
            reply: reply.get(..usize::from(length)).unwrap_or_default(),
        }
    }
}

/// What a number of 0 has; of the calls that ask what stands somewhere, 17 is not that of the screen.
pub(crate) fn value<T>(packed: u64, unpack: impl FnOnce(u64) -> T) -> Result<T, Refusal> {
    match byte(packed, 0) {
        0 => Ok(unpack(packed)),
        17 => Err(Refusal::NothingThere),
        number => Err(Refusal::from_number(number)),
    }
}

/// As many bits from `place` on, at most 32.
pub(crate) fn bits(packed: u64, place: u32, width: u32) -> u32 {
    (packed >> place & ((1 << width) - 1)) as u32
}

/// The bit at `place`.
pub(crate) fn bit(packed: u64, place: u32) -> bool {
    packed >> place & 1 == 1
}

/// The eight bits from `place` on.
pub(crate) fn byte(packed: u64, place: u32) -> u8 {
    (packed >> place) as u8
}

/// The sixteen bits from `place` on.
pub(crate) fn half(packed: u64, place: u32) -> usize {
    usize::from((packed >> place) as u16)
}
