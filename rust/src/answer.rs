use std::error::Error;
use std::{fmt, io};

use crate::version::Version;
use crate::{image, VERSION};

/// Why a request, a list, a save or a load was refused. The bench is then as it was.
///
/// Where several apply, [`Unsound`](Refusal::Unsound) comes first and then the one with the lowest number; for a line or a text,
/// [`Malformed`](Refusal::Malformed) comes before both, and for a list [`TooLong`](Refusal::TooLong) before all.
/// [`OtherLibrary`](Refusal::OtherLibrary) is no answer of the table.
///
/// ```
/// use dikothelm::{Bench, Refusal};
///
/// let refusal = Bench::new().read(0, 0).unwrap_err();
/// assert_eq!(refusal, Refusal::NotRunning);
/// assert_eq!(refusal.number(), 4);
/// assert_eq!(refusal.to_string(), "the acting number isn't running");
/// ```
#[derive(Clone, Copy, Debug, PartialEq, Eq, PartialOrd, Ord, Hash)]
#[repr(u8)]
#[non_exhaustive]
pub enum Refusal {
    /// 1: an action number is above 63.
    NoSuchAction = 1,
    /// 2: the instrument is above 127.
    NoSuchInstrument = 2,
    /// 3: the number to open is in use: running, committed or draining.
    NotFree = 3,
    /// 4: the acting number, or the parent to open under, isn't running.
    NotRunning = 4,
    /// 5: the acting number has a running child.
    RunningChild = 5,
    /// 6: an owner in a conflicting mode is neither the asker nor an ancestor of it.
    NotGranted = 6,
    /// 7: the record isn't sound.
    Unsound = 7,
    /// 8: the line or the saved text is malformed, or no request has the kind.
    Malformed = 8,
    /// 9: the buffer is shorter than the text.
    NoRoom = 9,
    /// 10: the number isn't an aborted action that drains, or nothing of it drains at the instrument.
    NotDraining = 10,
    /// 11: the list has more than 32 requests.
    TooLong = 11,
    /// 255: the linked library isn't the one that this crate is for; [`check_library`](crate::check_library) says when.
    OtherLibrary = 255,
}

impl Refusal {
    const OF_THE_TABLE: [Refusal; 11] = [
        Refusal::NoSuchAction,
        Refusal::NoSuchInstrument,
        Refusal::NotFree,
        Refusal::NotRunning,
        Refusal::RunningChild,
        Refusal::NotGranted,
        Refusal::Unsound,
        Refusal::Malformed,
        Refusal::NoRoom,
        Refusal::NotDraining,
        Refusal::TooLong,
    ];

    /// The answer's number, 1 to 11, or 255.
    ///
    /// ```
    /// assert_eq!(dikothelm::Refusal::NotGranted.number(), 6);
    /// ```
    #[must_use]
    pub const fn number(self) -> u8 {
        self as u8
    }
}

/// The refusal of the table with that number, 1 to 11.
///
/// ```
/// use dikothelm::Refusal;
/// assert_eq!(Refusal::try_from(6), Ok(Refusal::NotGranted));
/// assert!(Refusal::try_from(0).is_err());
/// assert_eq!(Refusal::try_from(12).unwrap_err().to_string(), "no refusal has the number 12");
/// ```
impl TryFrom<u8> for Refusal {
    type Error = UnknownNumber;

    fn try_from(number: u8) -> Result<Refusal, UnknownNumber> {
        Refusal::OF_THE_TABLE.into_iter().find(|refusal| refusal.number() == number).ok_or(UnknownNumber { what: "refusal", number })
    }
}

impl fmt::Display for Refusal {
    fn fmt(&self, f: &mut fmt::Formatter<'_>) -> fmt::Result {
        let words = match self {
            Refusal::NoSuchAction => "no such action number",
            Refusal::NoSuchInstrument => "no such instrument",
            Refusal::NotFree => "the number isn't free",
            Refusal::NotRunning => "the acting number isn't running",
            Refusal::RunningChild => "it has a running child",
            Refusal::NotGranted => "not granted: an action that is no ancestor owns it",
            Refusal::Unsound => "the record isn't sound",
            Refusal::Malformed => "malformed",
            Refusal::NoRoom => "the buffer is too short",
            Refusal::NotDraining => "it isn't an aborted action that drains there",
            Refusal::TooLong => "the list is too long",
            Refusal::OtherLibrary => {
                let (linked, own) = (Version(image::version()), Version(VERSION));
                return write!(f, "the linked libdikothelm.a, version {linked}, isn't the library that this crate, version {own}, is for");
            }
        };
        f.write_str(words)
    }
}

impl Error for Refusal {}

impl From<Refusal> for io::Error {
    fn from(refusal: Refusal) -> io::Error {
        io::Error::new(io::ErrorKind::Other, refusal)
    }
}

/// A number that no answer, no refusal or no state has.
///
/// ```
/// let unknown = dikothelm::Answer::try_from(12).unwrap_err();
/// assert_eq!(unknown.number(), 12);
/// assert_eq!(unknown.to_string(), "no answer has the number 12");
/// ```
#[derive(Clone, Copy, Debug, PartialEq, Eq, Hash)]
pub struct UnknownNumber {
    pub(crate) what: &'static str,
    pub(crate) number: u8,
}

impl UnknownNumber {
    /// The number.
    ///
    /// ```
    /// assert_eq!(dikothelm::State::try_from(4).map_err(|unknown| unknown.number()), Err(4));
    /// ```
    #[must_use]
    pub const fn number(self) -> u8 {
        self.number
    }
}

impl fmt::Display for UnknownNumber {
    fn fmt(&self, f: &mut fmt::Formatter<'_>) -> fmt::Result {
        write!(f, "no {} has the number {}", self.what, self.number)
    }
}

impl Error for UnknownNumber {}

/// An answer of the table: what a request's `Result` says, as one value to print or to number.
///
/// ```
/// use dikothelm::{Answer, Bench};
///
/// let mut bench = Bench::new();
/// let answer = Answer::from(bench.open_top(1));
/// assert_eq!(format!("{}, {}", answer.number(), answer), "0, accepted");
/// let answer = Answer::from(bench.open_top(1));
/// assert_eq!(format!("{}, {}", answer.number(), answer), "3, the number isn't free");
/// ```
#[derive(Clone, Copy, Debug, PartialEq, Eq, PartialOrd, Ord, Hash)]
#[non_exhaustive]
pub enum Answer {
    /// 0: done.
    Accepted,
    /// Refused, and why.
    Refused(Refusal),
}

impl Answer {
    /// The answer's number, 0 to 11, or 255.
    ///
    /// ```
    /// use dikothelm::{Answer, Refusal};
    /// assert_eq!(Answer::Accepted.number(), 0);
    /// assert_eq!(Answer::Refused(Refusal::Malformed).number(), 8);
    /// ```
    #[must_use]
    pub const fn number(self) -> u8 {
        match self {
            Answer::Accepted => 0,
            Answer::Refused(refusal) => refusal.number(),
        }
    }
}

/// The answer of the table with that number, 0 to 11.
///
/// ```
/// use dikothelm::{Answer, Refusal};
/// assert_eq!(Answer::try_from(0), Ok(Answer::Accepted));
/// assert_eq!(Answer::try_from(6), Ok(Answer::Refused(Refusal::NotGranted)));
/// assert!(Answer::try_from(12).is_err());
/// ```
impl TryFrom<u8> for Answer {
    type Error = UnknownNumber;

    fn try_from(number: u8) -> Result<Answer, UnknownNumber> {
        match number {
            0 => Ok(Answer::Accepted),
            _ => Refusal::try_from(number).map(Answer::Refused).map_err(|unknown| UnknownNumber { what: "answer", ..unknown }),
        }
    }
}

impl fmt::Display for Answer {
    fn fmt(&self, f: &mut fmt::Formatter<'_>) -> fmt::Result {
        match self {
            Answer::Accepted => f.write_str("accepted"),
            Answer::Refused(refusal) => refusal.fmt(f),
        }
    }
}

impl<T> From<Result<T, Refusal>> for Answer {
    fn from(result: Result<T, Refusal>) -> Answer {
        match result {
            Ok(_) => Answer::Accepted,
            Err(refusal) => Answer::Refused(refusal),
        }
    }
}

impl From<Answer> for Result<(), Refusal> {
    fn from(answer: Answer) -> Result<(), Refusal> {
        match answer {
            Answer::Accepted => Ok(()),
            Answer::Refused(refusal) => Err(refusal),
        }
    }
}

/// What the library's number means. The proved one gives no number but the table's.
pub(crate) fn answered(number: u8) -> Result<(), Refusal> {
    Answer::try_from(number).map_err(|_| Refusal::OtherLibrary)?.into()
}
