//! Refusals: why a call did not answer.

use core::fmt;

/// What the library refuses: docs/FORMAT.md has the table, docs/TZIF.md that of a TZif file.
#[derive(Clone, Copy, Debug, Eq, PartialEq)]
#[repr(u8)]
#[allow(missing_docs)] // `words` says each
pub enum Number {
    TooLarge = 1,
    TooShort = 2,
    Magic = 3,
    TableType = 4,
    Version = 5,
    FieldName = 6,
    Notice = 7,
    FirstSize = 8,
    SecondSize = 9,
    ThirdSize = 10,
    LengthMismatch = 11,
    LongNumber = 12,
    OutOfRange = 13,
    StringPastEnd = 14,
    FieldValue = 15,
    Precision = 16,
    TooManyHits = 17,
    TextRoom = 18,
    BorderPoints = 19,
    Coordinate = 20,
    RepeatedPoint = 21,
    FirstPointZero = 22,
    Piece = 23,
    OutputRoom = 24,
    Yards = 25,
    Text = 26,
    Form = 27,
    FileRoom = 28,
    NoYard = 29,
    NoValue = 30,
    Incomplete = 31,
    NothingLeft = 32,
    Fixes = 33,
    IndexTable = 34,
    IndexRoom = 35,
    OtherIndex = 36,
    TzifMagic = 40,
    TzifVersion = 41,
    TzifHeader = 42,
    TzifIsutcnt = 43,
    TzifIsstdcnt = 44,
    TzifTypecnt = 45,
    TzifCharcnt = 46,
    TzifBlock = 47,
    TzifTime = 48,
    TzifType = 49,
    TzifUtoff = 50,
    TzifIsdst = 51,
    TzifDesigidx = 52,
    TzifDesignation = 53,
    TzifOccurrence = 54,
    TzifCorrection = 55,
    TzifStandard = 56,
    TzifUt = 57,
    TzifFooter = 58,
    TzifRest = 59,
    TzifString = 60,
    TzifYear = 61,
    NotRequest = 80,
    NoFix = 81,
    Checksum = 82,
    OtherSentence = 83,
    NoPlace = 84,
    NotWhole = 85,
    NoZone = 86,
    NoNames = 87,
    NoFile = 88,
    Bundle = 89,
    Unknown = 90,
    LeapSeconds = 91,
    HoursDiffer = 92,
}

use Number::*;

/// Each number with its words, in order.
const TABLE: [(Number, &str); 71] = [
    (
        TooLarge,
        "file, or the writer's earlier data, over 1,073,741,824 bytes",
    ),
    (TooShort, "under 7 bytes"),
    (Magic, "magic"),
    (TableType, "table type"),
    (Version, "version 2 or more"),
    (FieldName, "field name"),
    (Notice, "notice"),
    (FirstSize, "first size can't be read"),
    (SecondSize, "second size can't be read"),
    (ThirdSize, "third size can't be read"),
    (LengthMismatch, "length mismatch"),
    (LongNumber, "eleventh varint byte"),
    (OutOfRange, "an integer step leaves its range"),
    (StringPastEnd, "string byte past the end"),
    (FieldValue, "field value"),
    (Precision, "precision 0 or above 32"),
    (TooManyHits, "more hits than slots"),
    (TextRoom, "text doesn't fit"),
    (
        BorderPoints,
        "border: no points, over 65,535, or the two lists differ in length",
    ),
    (Coordinate, "a coordinate beyond ±1,073,741,823"),
    (
        RepeatedPoint,
        "a point equal to the one before it in the list",
    ),
    (FirstPointZero, "first point (0,0)"),
    (Piece, "piece list"),
    (OutputRoom, "border doesn't fit the output"),
    (
        Yards,
        "no yards, over 4,096 yards, over 255 names, or a yard with more or fewer values than names",
    ),
    (Text, "a text over 255 bytes or not UTF-8"),
    (
        Form,
        "precision outside 1 to 31, a version above 1 or a type other than T or C",
    ),
    (FileRoom, "output full or the file over 1 GiB"),
    (NoYard, "drop from an empty builder"),
    (NoValue, "replace of a yard or field that isn't there"),
    (Incomplete, "a number that the file's end cuts"),
    (NothingLeft, "no entry is left"),
    (
        Fixes,
        "many fixes: lists of unequal length, over 4,096 fixes, or a third list too short",
    ),
    (
        IndexTable,
        "a table that is not in order, can't be read or runs past the metadata start",
    ),
    (IndexRoom, "index doesn't fit"),
    (OtherIndex, "index and file differ"),
    (TzifMagic, "a header does not begin with TZif"),
    (
        TzifVersion,
        "version missing, unknown, or the second header's not the first's",
    ),
    (TzifHeader, "the file ends inside a header"),
    (TzifIsutcnt, "isutcnt is neither 0 nor typecnt"),
    (TzifIsstdcnt, "isstdcnt is neither 0 nor typecnt"),
    (TzifTypecnt, "typecnt is 0"),
    (TzifCharcnt, "charcnt is 0"),
    (TzifBlock, "the file ends inside the data block"),
    (TzifTime, "a transition time not above the one before it"),
    (TzifType, "a transition type not below typecnt"),
    (TzifUtoff, "a utoff of -2^31"),
    (TzifIsdst, "an isdst other than 0 and 1"),
    (TzifDesigidx, "a desigidx not below charcnt"),
    (TzifDesignation, "no NUL at or after desigidx"),
    (TzifOccurrence, "a leap-second occurrence too early"),
    (
        TzifCorrection,
        "a leap-second correction not 1 away from the one before it",
    ),
    (TzifStandard, "a standard/wall indicator other than 0 and 1"),
    (TzifUt, "a UT/local indicator that is not allowed"),
    (TzifFooter, "a footer that is not newline, string, newline"),
    (TzifRest, "bytes behind the end"),
    (TzifString, "no TZ string, or one that contradicts the last transition"),
    (TzifYear, "the rule's instant, or the clock, is outside the years 1 to 9999"),
    (NotRequest, "not a request"),
    (NoFix, "the receiver has no fix"),
    (Checksum, "the checksum is wrong"),
    (OtherSentence, "another sentence"),
    (NoPlace, "out of range"),
    (NotWhole, "the search was not whole"),
    (NoZone, "no zone holds the fix"),
    (NoNames, "not a map of time zones"),
    (NoFile, "the zone is not in the bundle"),
    (Bundle, "the bundle is damaged"),
    (Unknown, "the local time is unknown"),
    (LeapSeconds, "the zone's file counts leap seconds"),
    (HoursDiffer, "the hours differ"),
];

impl Number {
    /// Every one of them, in order.
    pub fn all() -> impl Iterator<Item = Number> {
        TABLE.iter().map(|(known, _)| *known)
    }

    pub(crate) fn known(number: u8) -> Option<Number> {
        let known = TABLE.iter().find(|(known, _)| *known as u8 == number);
        known.map(|(known, _)| *known)
    }

    fn of(number: u8) -> Number {
        Number::known(number)
            .expect("the library's refusals are 1 to 36, 40 to 61 and 80 to 92")
    }

    /// What it says, in words.
    pub fn words(self) -> &'static str {
        let known = TABLE.iter().find(|(known, _)| *known == self);
        known.expect("the table has every number").1
    }

    /// What the detail is, where a refusal has one.
    fn detail(self) -> Option<&'static str> {
        match self {
            TooShort => Some("length"),
            Magic => Some("bytes"),
            TableType | Version => Some("byte"),
            FieldName | Piece => Some("index"),
            LengthMismatch => Some("computed length"),
            NotWhole => Some("mark"),
            TzifYear | NoFix | OtherSentence | NoZone | NoNames | NoFile | Unknown | LeapSeconds | HoursDiffer => None,
            _ if self as u8 >= 40 => Some("place"),
            _ => None,
        }
    }
}

/// Which of the two causes, for a bad field name, notice or field value.
#[derive(Clone, Copy, Debug, Eq, PartialEq)]
pub enum Cause {
    /// The string can't be read.
    Encoding,
    /// It is not UTF-8.
    Utf8,
}

/// A refusal: its number, which cause if it has one, and its detail, 0 if it has none.
#[derive(Clone, Copy, Debug, Eq, PartialEq)]
pub struct Refusal {
    /// What was refused.
    pub number: Number,
    /// Which of two causes.
    pub cause: Option<Cause>,
    /// The detail.
    pub detail: u64,
}

impl Refusal {
    /// From what a call returned, and its reply.
    pub(crate) fn of(number: u8, reply: [u64; 5]) -> Refusal {
        let cause = match reply[0] {
            1 => Some(Cause::Encoding),
            2 => Some(Cause::Utf8),
            _ => None,
        };
        Refusal {
            number: Number::of(number),
            cause,
            detail: reply[1],
        }
    }
}

impl fmt::Display for Refusal {
    fn fmt(&self, f: &mut fmt::Formatter) -> fmt::Result {
        write!(f, "refusal {}: {}", self.number as u8, self.number.words())?;
        match self.cause {
            Some(Cause::Encoding) => write!(f, ": encoding")?,
            Some(Cause::Utf8) => write!(f, ": UTF-8")?,
            None => (),
        }
        match self.number.detail() {
            Some(what) if self.number == Magic => write!(f, " ({what} {:06X})", self.detail),
            Some(what) => write!(f, " ({what} {})", self.detail),
            None => Ok(()),
        }
    }
}

#[cfg(feature = "std")]
impl std::error::Error for Refusal {}

/// The refusal that stopped a call of many fixes, and the index of the fix that met it: 0 for 33 and for what opening refuses.
#[derive(Clone, Copy, Debug, Eq, PartialEq)]
pub struct Stop {
    /// Which fix.
    pub index: usize,
    /// Why.
    pub why: Refusal,
}

impl fmt::Display for Stop {
    fn fmt(&self, f: &mut fmt::Formatter) -> fmt::Result {
        write!(f, "fix {}: {}", self.index, self.why)
    }
}

#[cfg(feature = "std")]
impl std::error::Error for Stop {}

/// Why a slip is not stamped: the refusal, and the match that met it. Its words are those of the program `stamp`: number, cause, detail, and what it says.
#[derive(Clone, Copy, Debug, Eq, PartialEq)]
pub struct NotStamped {
    /// What was refused.
    pub why: Refusal,
    /// Whose zone met it, from 1, and 255 from the 255th match on; none where the request, the map or all matches together did.
    pub at: Option<u8>,
}

impl NotStamped {
    /// From what a call returned, and its reply. The map's names and fields have causes of their own; no other refusal of a request or a map has one.
    pub(crate) fn of(number: u8, reply: [u64; 5]) -> NotStamped {
        let why = Refusal::of(number, reply);
        if matches!(why.number, FieldName | Notice | FieldValue) {
            return NotStamped { why, at: None };
        }
        let at = u8::try_from(reply[0]).ok().filter(|at| *at > 0);
        NotStamped { why: Refusal { cause: None, ..why }, at }
    }

    /// The cause as the library says it.
    fn cause(&self) -> u8 {
        match self.why.cause {
            Some(Cause::Encoding) => 1,
            Some(Cause::Utf8) => 2,
            None => self.at.unwrap_or(0),
        }
    }
}

impl fmt::Display for NotStamped {
    fn fmt(&self, f: &mut fmt::Formatter) -> fmt::Result {
        let Refusal { number, detail, .. } = self.why;
        write!(f, "{} {} {detail} {}", number as u8, self.cause(), number.words())
    }
}

#[cfg(feature = "std")]
impl std::error::Error for NotStamped {}

#[cfg(test)]
mod tests {
    use super::*;

    #[test]
    fn the_table_is_in_order() {
        let numbers: Vec<u8> = (1..=36).chain(40..=61).chain(80..=92).collect();
        assert_eq!(TABLE.map(|(number, _)| number as u8).to_vec(), numbers);
        for (number, words) in TABLE {
            assert_eq!(Number::of(number as u8), number);
            assert_eq!(number.words(), words);
        }
    }

    #[test]
    fn a_refusal_says_its_cause_and_detail() {
        let name = Refusal::of(6, [2, 3, 0, 0, 0]);
        assert_eq!(name.to_string(), "refusal 6: field name: UTF-8 (index 3)");
        let magic = Refusal::of(3, [0, 0x504C44, 0, 0, 0]);
        assert_eq!(magic.to_string(), "refusal 3: magic (bytes 504C44)");
        let room = Refusal::of(18, [0; 5]);
        assert_eq!(room.to_string(), "refusal 18: text doesn't fit");
        let count = Refusal::of(45, [0, 36, 0, 0, 0]);
        assert_eq!(count.to_string(), "refusal 45: typecnt is 0 (place 36)");
        let third = Stop { index: 2, why: room };
        assert_eq!(third.to_string(), "fix 2: refusal 18: text doesn't fit");
    }

    #[test]
    fn a_slips_cause_is_a_match() {
        let said = |number, cause, detail| NotStamped::of(number, [cause, detail, 0, 0, 0]);
        assert_eq!(said(88, 1, 0).to_string(), "88 1 0 the zone is not in the bundle");
        assert_eq!((said(88, 1, 0).at, said(88, 1, 0).why.cause), (Some(1), None));
        assert_eq!(said(6, 2, 3).to_string(), "6 2 3 field name");
        assert_eq!((said(6, 2, 3).at, said(6, 2, 3).why.cause), (None, Some(Cause::Utf8)));
        assert_eq!(said(15, 1, 0).to_string(), "15 1 0 field value");
        assert_eq!(said(45, 255, 36).to_string(), "45 255 36 typecnt is 0");
        assert_eq!((said(92, 0, 0).at, said(85, 0, 4).to_string()), (None, "85 0 4 the search was not whole".into()));
    }
}
