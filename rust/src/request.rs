use crate::Answer;

/// A request of a [list](crate::Bench::play_list): its kind, two numbers and the place for its answer.
///
/// Its kind is a frame's code: 1 open top, 2 open sub, 3 read, 4 write, 5 commit, 6 abort, 7 quiet; any other is answered
/// [`Malformed`](crate::Refusal::Malformed). A number that its kind doesn't need is ignored.
///
/// ```
/// use dikothelm::{Answer, Request};
///
/// let request = Request::open_sub(2, 1);
/// assert_eq!((request.kind, request.x, request.y), (2, 2, 1));
/// assert_eq!(request.played(), None);
/// assert_eq!(Request { answer: 0, ..request }.played(), Some(Answer::Accepted));
/// ```
#[derive(Clone, Copy, Debug, PartialEq, Eq, Hash)]
#[repr(C)]
pub struct Request {
    /// Which request it is, 1 to 7.
    pub kind: u32,
    /// The first number: of the action that is opened or acts.
    pub x: u32,
    /// The second number: the parent of open sub, the instrument of read, write and quiet.
    pub y: u32,
    /// The place for the answer's number. What it holds before is of no account; the functions below put [`Request::NOT_PLAYED`] there.
    pub answer: u32,
}

impl Request {
    /// No answer's number, for a request that hasn't been played.
    ///
    /// ```
    /// use dikothelm::Request;
    /// assert_eq!(Request::commit(1).answer, Request::NOT_PLAYED);
    /// ```
    pub const NOT_PLAYED: u32 = u32::MAX;

    /// What its place says: `None` where it has no answer's number.
    ///
    /// ```
    /// use dikothelm::{Bench, Refusal, Request};
    ///
    /// let mut list = [Request::open_top(64)];
    /// Bench::new().play_list(&mut list)?;
    /// assert_eq!(list[0].played().map(Into::into), Some(Err(Refusal::NoSuchAction)));
    /// # Ok::<(), Refusal>(())
    /// ```
    #[must_use]
    pub fn played(&self) -> Option<Answer> {
        u8::try_from(self.answer).ok().and_then(|number| Answer::try_from(number).ok())
    }

    const fn new(kind: u32, x: u32, y: u32) -> Request {
        Request { kind, x, y, answer: Request::NOT_PLAYED }
    }

    /// As [`Bench::open_top`](crate::Bench::open_top).
    ///
    /// ```
    /// assert_eq!(dikothelm::Request::open_top(7).kind, 1);
    /// ```
    #[must_use]
    pub const fn open_top(n: u32) -> Request {
        Request::new(1, n, 0)
    }

    /// As [`Bench::open_sub`](crate::Bench::open_sub).
    ///
    /// ```
    /// assert_eq!(dikothelm::Request::open_sub(8, 7).kind, 2);
    /// ```
    #[must_use]
    pub const fn open_sub(n: u32, p: u32) -> Request {
        Request::new(2, n, p)
    }

    /// As [`Bench::read`](crate::Bench::read).
    ///
    /// ```
    /// assert_eq!(dikothelm::Request::read(7, 5).kind, 3);
    /// ```
    #[must_use]
    pub const fn read(a: u32, i: u32) -> Request {
        Request::new(3, a, i)
    }

    /// As [`Bench::write`](crate::Bench::write).
    ///
    /// ```
    /// assert_eq!(dikothelm::Request::write(7, 5).kind, 4);
    /// ```
    #[must_use]
    pub const fn write(a: u32, i: u32) -> Request {
        Request::new(4, a, i)
    }

    /// As [`Bench::commit`](crate::Bench::commit).
    ///
    /// ```
    /// assert_eq!(dikothelm::Request::commit(7).kind, 5);
    /// ```
    #[must_use]
    pub const fn commit(a: u32) -> Request {
        Request::new(5, a, 0)
    }

    /// As [`Bench::abort`](crate::Bench::abort).
    ///
    /// ```
    /// assert_eq!(dikothelm::Request::abort(7).kind, 6);
    /// ```
    #[must_use]
    pub const fn abort(a: u32) -> Request {
        Request::new(6, a, 0)
    }

    /// As [`Bench::quiet`](crate::Bench::quiet).
    ///
    /// ```
    /// assert_eq!(dikothelm::Request::quiet(7, 5).kind, 7);
    /// ```
    #[must_use]
    pub const fn quiet(a: u32, i: u32) -> Request {
        Request::new(7, a, i)
    }
}
