use std::fmt;

use crate::answer::{answered, UnknownNumber};
use crate::{check_library, image};
use crate::{Numbers, Refusal, Request, ACTIONS, INSTRUMENTS, LONGEST_TEXT};

const NUMBERS: usize = ACTIONS as usize;
const SETS: usize = INSTRUMENTS as usize;

/// The state of an action number.
///
/// ```
/// use dikothelm::{Bench, State};
///
/// let mut bench = Bench::new();
/// bench.open_top(1)?;
/// bench.open_sub(2, 1)?;
/// bench.commit(2)?;
/// assert_eq!([0, 1, 2].map(|n| bench.state(n)), [Some(State::Free), Some(State::Running), Some(State::Committed)]);
/// bench.write(1, 5)?;
/// bench.abort(1)?;
/// assert_eq!([0, 1, 2].map(|n| bench.state(n)), [Some(State::Free), Some(State::Draining), Some(State::Draining)]);
/// # Ok::<(), dikothelm::Refusal>(())
/// ```
#[derive(Clone, Copy, Debug, PartialEq, Eq, Hash)]
#[repr(u8)]
#[non_exhaustive]
pub enum State {
    /// 0: not in use.
    Free = 0,
    /// 1: open. It may ask, commit and abort.
    Running = 1,
    /// 2: a subaction that has committed. Its number stays in use until its family ends, and its locks count as its parent's.
    Committed = 2,
    /// 3: aborted, by itself or with an ancestor, while some of the aborted owned something. Its number stays in use until all instruments are
    /// [`quiet`](Bench::quiet), and its locks count as those of the aborted action, its [`head`](Bench::head).
    Draining = 3,
}

impl State {
    /// The state's number. In a record a draining number has 3 + its head.
    ///
    /// ```
    /// assert_eq!(dikothelm::State::Committed.number(), 2);
    /// ```
    #[must_use]
    pub const fn number(self) -> u8 {
        self as u8
    }
}

/// The state with that number.
///
/// ```
/// use dikothelm::State;
/// assert_eq!(State::try_from(2), Ok(State::Committed));
/// assert_eq!(State::try_from(4).unwrap_err().to_string(), "no state has the number 4");
/// ```
impl TryFrom<u8> for State {
    type Error = UnknownNumber;

    fn try_from(number: u8) -> Result<State, UnknownNumber> {
        match number {
            0 => Ok(State::Free),
            1 => Ok(State::Running),
            2 => Ok(State::Committed),
            3 => Ok(State::Draining),
            _ => Err(UnknownNumber { what: "state", number }),
        }
    }
}

/// A bench: which action numbers are in use, and which actions read and write which instruments.
///
/// Requests change it in place and leave it as it was where they are refused. `Debug` shows who owns what. Besides the errors that each method names,
/// all give [`Refusal::OtherLibrary`] where [`check_library`] does.
///
/// ```
/// use dikothelm::{Bench, Refusal};
///
/// let mut bench = Bench::new();
/// bench.open_top(1)?;
/// bench.open_sub(2, 1)?;
/// bench.write(2, 5)?;
/// bench.commit(2)?;
/// assert_eq!(
///     format!("{bench:?}"),
///     "Bench { actions: {1: running, 2: committed under 1}, instruments: {5: written by 1 (from 2)} }"
/// );
/// bench.abort(1)?;
/// assert_eq!(
///     format!("{bench:?}"),
///     "Bench { actions: {1: draining, 2: draining under 1}, instruments: {5: written by 1 (from 2)} }"
/// );
/// # Ok::<(), Refusal>(())
/// ```
#[derive(Clone, PartialEq, Eq, Hash)]
pub struct Bench {
    actions: [u8; 2 * NUMBERS],
    owners: [u64; 2 * SETS],
}

impl Bench {
    /// An empty bench: all numbers are free, nobody owns anything.
    ///
    /// ```
    /// use dikothelm::Bench;
    /// assert!(Bench::new().is_sound());
    /// assert_eq!(Bench::new(), Bench::default());
    /// ```
    #[must_use]
    pub const fn new() -> Bench {
        Bench { actions: [0; 2 * NUMBERS], owners: [0; 2 * SETS] }
    }

    /// A bench of raw arrays, as [`image`] describes them. Any content may be held; on one that isn't sound every request gets [`Refusal::Unsound`].
    ///
    /// ```
    /// use dikothelm::{Bench, Refusal};
    ///
    /// let mut bench = Bench::from_image([255; 128], [0; 256]);
    /// assert!(!bench.is_sound());
    /// assert_eq!(bench.open_top(1), Err(Refusal::Unsound));
    /// ```
    #[must_use]
    pub const fn from_image(actions: [u8; 128], owners: [u64; 256]) -> Bench {
        Bench { actions, owners }
    }

    /// The first array: parents of the 64 numbers (0: none, else the number + 1), then their states, for a draining number 3 + its head.
    ///
    /// ```
    /// let mut bench = dikothelm::Bench::new();
    /// bench.open_top(3)?;
    /// bench.open_sub(4, 3)?;
    /// assert_eq!(bench.actions()[4], 3 + 1);
    /// assert_eq!(bench.actions()[64 + 4], 1);
    /// # Ok::<(), dikothelm::Refusal>(())
    /// ```
    #[must_use]
    pub const fn actions(&self) -> &[u8; 128] {
        &self.actions
    }

    /// The second array: read sets of the 128 instruments, then their write sets.
    ///
    /// ```
    /// let mut bench = dikothelm::Bench::new();
    /// bench.open_top(3)?;
    /// bench.write(3, 5)?;
    /// assert_eq!(bench.owners()[128 + 5], 1 << 3);
    /// # Ok::<(), dikothelm::Refusal>(())
    /// ```
    #[must_use]
    pub const fn owners(&self) -> &[u64; 256] {
        &self.owners
    }

    /// Whether the record is sound. Every bench that came of requests or of a load is. Where [`check_library`] gives an error none is called sound.
    ///
    /// ```
    /// use dikothelm::Bench;
    /// assert!(Bench::new().is_sound());
    /// assert!(!Bench::from_image([0; 128], [1; 256]).is_sound());
    /// ```
    #[must_use]
    pub fn is_sound(&self) -> bool {
        check_library().is_ok() && image::sound(&self.actions, &self.owners) == 0
    }

    /// Makes n a running top action.
    ///
    /// # Errors
    /// [`Unsound`](Refusal::Unsound); [`NoSuchAction`](Refusal::NoSuchAction); [`NotFree`](Refusal::NotFree).
    ///
    /// ```
    /// use dikothelm::{Bench, Refusal};
    ///
    /// let mut bench = Bench::new();
    /// assert_eq!(bench.open_top(63), Ok(()));
    /// assert_eq!(bench.open_top(63), Err(Refusal::NotFree));
    /// assert_eq!(bench.open_top(64), Err(Refusal::NoSuchAction));
    /// ```
    pub fn open_top(&mut self, n: u32) -> Result<(), Refusal> {
        self.ask(|actions, owners| image::open_top(actions, owners, n))
    }

    /// Makes n a running action under p, which may have many running children.
    ///
    /// # Errors
    /// [`Unsound`](Refusal::Unsound); [`NoSuchAction`](Refusal::NoSuchAction); [`NotFree`](Refusal::NotFree); [`NotRunning`](Refusal::NotRunning): p isn't.
    ///
    /// ```
    /// use dikothelm::{Bench, Refusal};
    ///
    /// let mut bench = Bench::new();
    /// assert_eq!(bench.open_sub(7, 7), Err(Refusal::NotRunning));
    /// bench.open_top(7)?;
    /// assert_eq!(bench.open_sub(7, 7), Err(Refusal::NotFree));
    /// assert_eq!(bench.open_sub(8, 7), Ok(()));
    /// # Ok::<(), Refusal>(())
    /// ```
    pub fn open_sub(&mut self, n: u32, p: u32) -> Result<(), Refusal> {
        self.ask(|actions, owners| image::open_sub(actions, owners, n, p))
    }

    /// Lets a read instrument i, if every write owner of i is a or an ancestor of a.
    ///
    /// # Errors
    /// [`Unsound`](Refusal::Unsound); [`NoSuchAction`](Refusal::NoSuchAction); [`NoSuchInstrument`](Refusal::NoSuchInstrument);
    /// [`NotRunning`](Refusal::NotRunning); [`RunningChild`](Refusal::RunningChild); [`NotGranted`](Refusal::NotGranted).
    ///
    /// ```
    /// use dikothelm::{Bench, Refusal};
    ///
    /// let mut bench = Bench::new();
    /// bench.open_top(1)?;
    /// bench.open_top(9)?;
    /// bench.write(1, 5)?;
    /// assert_eq!(bench.read(9, 5), Err(Refusal::NotGranted));
    /// assert_eq!(bench.read(9, 6), Ok(()));
    /// # Ok::<(), Refusal>(())
    /// ```
    pub fn read(&mut self, a: u32, i: u32) -> Result<(), Refusal> {
        self.ask(|actions, owners| image::read(actions, owners, a, i))
    }

    /// Lets a write instrument i, if every owner of i, reading or writing, is a or an ancestor of a.
    ///
    /// # Errors
    /// As for [`read`](Bench::read).
    ///
    /// ```
    /// use dikothelm::{Bench, Refusal};
    ///
    /// let mut bench = Bench::new();
    /// bench.open_top(1)?;
    /// bench.open_top(9)?;
    /// bench.read(1, 5)?;
    /// assert_eq!(bench.write(9, 5), Err(Refusal::NotGranted));
    /// assert_eq!(bench.write(1, 5), Ok(()));
    /// # Ok::<(), Refusal>(())
    /// ```
    pub fn write(&mut self, a: u32, i: u32) -> Result<(), Refusal> {
        self.ask(|actions, owners| image::write(actions, owners, a, i))
    }

    /// Commits a. A subaction's locks pass to its parent; a top action and all its descendants become free and their locks go.
    ///
    /// # Errors
    /// [`Unsound`](Refusal::Unsound); [`NoSuchAction`](Refusal::NoSuchAction); [`NotRunning`](Refusal::NotRunning);
    /// [`RunningChild`](Refusal::RunningChild).
    ///
    /// ```
    /// use dikothelm::{Bench, Refusal};
    ///
    /// let mut bench = Bench::new();
    /// bench.open_top(1)?;
    /// bench.open_sub(2, 1)?;
    /// assert_eq!(bench.commit(1), Err(Refusal::RunningChild));
    /// bench.commit(2)?;
    /// bench.commit(1)?;
    /// assert_eq!(bench, Bench::new());
    /// # Ok::<(), Refusal>(())
    /// ```
    pub fn commit(&mut self, a: u32) -> Result<(), Refusal> {
        self.ask(|actions, owners| image::commit(actions, owners, a))
    }

    /// Aborts a and all its descendants, running or committed. If one of them stands in a set they all drain: they leave the tree and stay in use, and a owns
    /// what they had, in everybody's way, until each instrument is [`quiet`](Bench::quiet). Else they become free.
    ///
    /// # Errors
    /// [`Unsound`](Refusal::Unsound); [`NoSuchAction`](Refusal::NoSuchAction); [`NotRunning`](Refusal::NotRunning).
    ///
    /// ```
    /// use dikothelm::{Bench, Refusal};
    ///
    /// let mut bench = Bench::new();
    /// bench.open_top(1)?;
    /// bench.open_sub(2, 1)?;
    /// bench.abort(1)?;
    /// assert_eq!(bench.abort(2), Err(Refusal::NotRunning));
    /// assert_eq!(bench, Bench::new());
    /// # Ok::<(), Refusal>(())
    /// ```
    pub fn abort(&mut self, a: u32) -> Result<(), Refusal> {
        self.ask(|actions, owners| image::abort(actions, owners, a))
    }

    /// Instrument i is quiet for the aborted action a: all numbers that drain under a leave its sets, and become free when none of them is left in any set.
    ///
    /// # Errors
    /// [`Unsound`](Refusal::Unsound); [`NoSuchAction`](Refusal::NoSuchAction); [`NoSuchInstrument`](Refusal::NoSuchInstrument);
    /// [`NotDraining`](Refusal::NotDraining): a doesn't drain under itself, or none that drains under it is in the sets of i.
    ///
    /// ```
    /// use dikothelm::{Bench, Refusal};
    ///
    /// let mut bench = Bench::new();
    /// bench.open_top(1)?;
    /// bench.open_sub(2, 1)?;
    /// bench.write(2, 5)?;
    /// bench.abort(1)?;
    /// bench.open_top(9)?;
    /// assert_eq!(bench.read(9, 5), Err(Refusal::NotGranted));
    /// assert_eq!(bench.quiet(2, 5), Err(Refusal::NotDraining)); // it drains under 1
    /// assert_eq!(bench.quiet(1, 5), Ok(()));
    /// assert_eq!(bench.read(9, 5), Ok(()));
    /// # Ok::<(), Refusal>(())
    /// ```
    pub fn quiet(&mut self, a: u32, i: u32) -> Result<(), Refusal> {
        self.ask(|actions, owners| image::quiet(actions, owners, a, i))
    }

    /// Plays a list of at most [`LONGEST_LIST`](crate::LONGEST_LIST) requests in their order, in one call and with one test of the record: each gets the
    /// answer of its method in its place, and nothing else of the list changes. A refused request doesn't stop the rest; one of an unknown kind gets
    /// [`Malformed`](Refusal::Malformed) in its place, and on an unsound record any other [`Unsound`](Refusal::Unsound).
    ///
    /// # Errors
    /// [`TooLong`](Refusal::TooLong): nothing was played. What is refused to a request stands in its place.
    ///
    /// ```
    /// use dikothelm::{Bench, Refusal, Request};
    ///
    /// let mut bench = Bench::new();
    /// let mut list = [Request::open_top(1), Request::open_top(9), Request::write(1, 5), Request::read(9, 5), Request::commit(9)];
    /// bench.play_list(&mut list)?;
    /// assert_eq!(list.map(|request| request.answer), [0, 0, 0, Refusal::NotGranted.number().into(), 0]);
    /// assert_eq!(bench.state(9), Some(dikothelm::State::Free));
    /// # Ok::<(), Refusal>(())
    /// ```
    pub fn play_list(&mut self, list: &mut [Request]) -> Result<(), Refusal> {
        self.ask(|actions, owners| image::list(actions, owners, image::words_of(list)))?;
        // The proved library puts no number there but the table's.
        if list.iter().all(|request| request.played().is_some()) {
            Ok(())
        } else {
            Err(Refusal::OtherLibrary)
        }
    }

    /// How many bytes the bench's text has, at most [`LONGEST_TEXT`].
    ///
    /// # Errors
    /// [`Unsound`](Refusal::Unsound).
    ///
    /// ```
    /// use dikothelm::{Bench, Refusal};
    ///
    /// let mut bench = Bench::new();
    /// assert_eq!(bench.text_size(), Ok(0));
    /// bench.open_top(1)?;
    /// assert_eq!(bench.text_size(), Ok(9));
    /// assert_eq!(bench.save_into(&mut [0; 9]), Ok(9));
    /// # Ok::<(), Refusal>(())
    /// ```
    pub fn text_size(&self) -> Result<usize, Refusal> {
        check_library()?;
        counted(image::text_size(&self.actions, &self.owners), LONGEST_TEXT)
    }

    /// The bench as text.
    ///
    /// # Errors
    /// [`Unsound`](Refusal::Unsound).
    ///
    /// ```
    /// use dikothelm::{Bench, Refusal};
    ///
    /// let mut bench = Bench::new();
    /// assert_eq!(bench.save()?, b"");
    /// bench.open_top(1)?;
    /// bench.write(1, 5)?;
    /// assert_eq!(bench.save()?, b"110101ff\n120500000000000000000000000000000002\n");
    /// assert_eq!(Bench::load(&bench.save()?)?, bench);
    /// # Ok::<(), Refusal>(())
    /// ```
    pub fn save(&self) -> Result<Vec<u8>, Refusal> {
        let mut text = vec![0; LONGEST_TEXT];
        let count = self.save_into(&mut text)?;
        text.truncate(count);
        Ok(text)
    }

    /// Writes the bench as text to the start of `out` and tells how many bytes it has; bytes behind it stay. Refused, it writes nothing.
    ///
    /// # Errors
    /// [`Unsound`](Refusal::Unsound); [`NoRoom`](Refusal::NoRoom): `out` is shorter than the text.
    ///
    /// ```
    /// use dikothelm::{Bench, Refusal};
    ///
    /// let mut bench = Bench::new();
    /// bench.open_top(1)?;
    /// assert_eq!(bench.save_into(&mut [0; 8]), Err(Refusal::NoRoom));
    /// assert_eq!(bench.save_into(&mut [0; 9]), Ok(9));
    /// # Ok::<(), Refusal>(())
    /// ```
    pub fn save_into(&self, out: &mut [u8]) -> Result<usize, Refusal> {
        check_library()?;
        counted(image::save(&self.actions, &self.owners, out), out.len())
    }

    /// The bench that a text saved. Empty text is the empty bench.
    ///
    /// # Errors
    /// [`Malformed`](Refusal::Malformed): the text isn't in the saved form; [`Unsound`](Refusal::Unsound): it is well shaped and its bench isn't sound.
    ///
    /// ```
    /// use dikothelm::{Bench, Refusal};
    ///
    /// assert_eq!(Bench::load(b"110101ff\n")?.state(1), Some(dikothelm::State::Running));
    /// assert_eq!(Bench::load(b"110101ff"), Err(Refusal::Malformed));
    /// assert_eq!(Bench::load(b"110102ff\n"), Err(Refusal::Unsound));
    /// # Ok::<(), Refusal>(())
    /// ```
    pub fn load(text: &[u8]) -> Result<Bench, Refusal> {
        let mut bench = Bench::new();
        bench.ask(|actions, owners| image::load(actions, owners, text)).map(|()| bench)
    }

    /// The state of number n; `None` for a number above 63, and for a byte of an unsound record that means nothing.
    ///
    /// ```
    /// use dikothelm::{Bench, State};
    /// assert_eq!(Bench::new().state(63), Some(State::Free));
    /// assert_eq!(Bench::new().state(64), None);
    /// ```
    #[must_use]
    pub fn state(&self, n: u32) -> Option<State> {
        if n >= ACTIONS {
            return None;
        }
        if self.head(n).is_some() {
            return Some(State::Draining);
        }
        State::try_from(self.actions[NUMBERS + n as usize]).ok()
    }

    /// The aborted action that number n drains under, if n drains.
    ///
    /// ```
    /// let mut bench = dikothelm::Bench::new();
    /// bench.open_top(1)?;
    /// bench.open_sub(2, 1)?;
    /// bench.write(2, 5)?;
    /// bench.abort(1)?;
    /// assert_eq!([0, 1, 2, 64].map(|n| bench.head(n)), [None, Some(1), Some(1), None]);
    /// # Ok::<(), dikothelm::Refusal>(())
    /// ```
    #[must_use]
    pub fn head(&self, n: u32) -> Option<u32> {
        if n >= ACTIONS {
            return None;
        }
        u32::from(self.actions[NUMBERS + n as usize]).checked_sub(u32::from(State::Draining.number())).filter(|&head| head < ACTIONS)
    }

    /// The parent that the record has for number n, if any: on a sound bench a top action, a free and a draining number have none. An unsound record may have
    /// one for those too, and any up to 254. `None` for a number above 63.
    ///
    /// ```
    /// let mut bench = dikothelm::Bench::new();
    /// bench.open_top(0)?;
    /// bench.open_sub(1, 0)?;
    /// assert_eq!([0, 1, 2, 64].map(|n| bench.parent(n)), [None, Some(0), None, None]);
    /// # Ok::<(), dikothelm::Refusal>(())
    /// ```
    #[must_use]
    pub fn parent(&self, n: u32) -> Option<u32> {
        if n >= ACTIONS {
            return None;
        }
        u32::from(self.actions[n as usize]).checked_sub(1)
    }

    /// The action that n's locks count for: the nearest running one among n and its ancestors, or the aborted one that n drains under.
    ///
    /// ```
    /// let mut bench = dikothelm::Bench::new();
    /// bench.open_top(1)?;
    /// bench.open_sub(2, 1)?;
    /// assert_eq!(bench.heir(2), Some(2));
    /// bench.commit(2)?;
    /// assert_eq!(bench.heir(2), Some(1));
    /// assert_eq!(bench.heir(3), None);
    /// # Ok::<(), dikothelm::Refusal>(())
    /// ```
    #[must_use]
    pub fn heir(&self, n: u32) -> Option<u32> {
        if let Some(head) = self.head(n) {
            return Some(head);
        }
        let mut k = n;
        for _ in 0..ACTIONS {
            if self.state(k) == Some(State::Running) {
                return Some(k);
            }
            k = self.parent(k)?;
        }
        None
    }

    /// The numbers in the read set of instrument i, committed and draining ones too; none for an instrument above 127.
    ///
    /// ```
    /// let mut bench = dikothelm::Bench::new();
    /// bench.open_top(1)?;
    /// bench.read(1, 5)?;
    /// assert!(bench.readers(5).contains(1));
    /// assert!(bench.readers(6).is_empty() && bench.readers(128).is_empty());
    /// # Ok::<(), dikothelm::Refusal>(())
    /// ```
    #[must_use]
    pub fn readers(&self, i: u32) -> Numbers {
        self.set(i, 0)
    }

    /// The numbers in the write set of instrument i, committed and draining ones too; none for an instrument above 127.
    ///
    /// ```
    /// let mut bench = dikothelm::Bench::new();
    /// bench.open_top(1)?;
    /// bench.write(1, 5)?;
    /// assert!(bench.writers(5).contains(1));
    /// assert!(bench.readers(5).is_empty());
    /// # Ok::<(), dikothelm::Refusal>(())
    /// ```
    #[must_use]
    pub fn writers(&self, i: u32) -> Numbers {
        self.set(i, SETS)
    }

    /// The actions, running or draining, that own instrument i for reading by Moss's rules: the heirs of its readers.
    ///
    /// ```
    /// let mut bench = dikothelm::Bench::new();
    /// bench.open_top(1)?;
    /// bench.open_sub(2, 1)?;
    /// bench.read(2, 5)?;
    /// bench.commit(2)?;
    /// assert_eq!(format!("{:?} {:?}", bench.readers(5), bench.read_owners(5)), "{2} {1}");
    /// # Ok::<(), dikothelm::Refusal>(())
    /// ```
    #[must_use]
    pub fn read_owners(&self, i: u32) -> Numbers {
        self.heirs(self.readers(i))
    }

    /// The actions, running or draining, that own instrument i for writing by Moss's rules: the heirs of its writers.
    ///
    /// ```
    /// let mut bench = dikothelm::Bench::new();
    /// bench.open_top(1)?;
    /// bench.open_sub(2, 1)?;
    /// bench.write(2, 5)?;
    /// bench.commit(2)?;
    /// assert_eq!(format!("{:?} {:?}", bench.writers(5), bench.write_owners(5)), "{2} {1}");
    /// # Ok::<(), dikothelm::Refusal>(())
    /// ```
    #[must_use]
    pub fn write_owners(&self, i: u32) -> Numbers {
        self.heirs(self.writers(i))
    }

    fn set(&self, i: u32, start: usize) -> Numbers {
        Numbers::from(if i < INSTRUMENTS { self.owners[start + i as usize] } else { 0 })
    }

    fn heirs(&self, numbers: Numbers) -> Numbers {
        Numbers::from(numbers.iter().filter_map(|n| self.heir(n)).fold(0, |bits, heir| bits | 1 << heir))
    }

    /// Asks the library, if it is this crate's.
    fn ask(&mut self, call: impl FnOnce(&mut [u8], &mut [u64]) -> u8) -> Result<(), Refusal> {
        check_library()?;
        answered(call(&mut self.actions, &mut self.owners))
    }

    pub(crate) fn image_mut(&mut self) -> (&mut [u8], &mut [u64]) {
        (&mut self.actions, &mut self.owners)
    }
}

/// What an answer with a count means. The proved library's count is within its limit.
fn counted((answer, count): (u8, usize), limit: usize) -> Result<usize, Refusal> {
    answered(answer)?;
    if count <= limit {
        Ok(count)
    } else {
        Err(Refusal::OtherLibrary)
    }
}

impl Default for Bench {
    fn default() -> Bench {
        Bench::new()
    }
}

impl fmt::Debug for Bench {
    fn fmt(&self, f: &mut fmt::Formatter<'_>) -> fmt::Result {
        f.debug_struct(if self.is_sound() { "Bench" } else { "UnsoundBench" })
            .field("actions", &Actions(self))
            .field("instruments", &Instruments(self))
            .finish()
    }
}

struct Actions<'a>(&'a Bench);

impl fmt::Debug for Actions<'_> {
    fn fmt(&self, f: &mut fmt::Formatter<'_>) -> fmt::Result {
        let shown = (0..ACTIONS).filter(|&n| self.0.state(n) != Some(State::Free) || self.0.parent(n).is_some());
        f.debug_map().entries(shown.map(|n| (n, InWords(self.0.action_in_words(n))))).finish()
    }
}

struct Instruments<'a>(&'a Bench);

impl fmt::Debug for Instruments<'_> {
    fn fmt(&self, f: &mut fmt::Formatter<'_>) -> fmt::Result {
        let shown = (0..INSTRUMENTS).filter(|&i| !self.0.readers(i).is_empty() || !self.0.writers(i).is_empty());
        f.debug_map().entries(shown.map(|i| (i, InWords(self.0.instrument_in_words(i))))).finish()
    }
}

/// Text that `Debug` shows without quotes.
struct InWords(String);

impl fmt::Debug for InWords {
    fn fmt(&self, f: &mut fmt::Formatter<'_>) -> fmt::Result {
        f.write_str(&self.0)
    }
}

impl Bench {
    fn action_in_words(&self, n: u32) -> String {
        if let Some(head) = self.head(n) {
            let under = if head == n { String::new() } else { format!(" under {head}") };
            let unsound = self.parent(n).map_or(String::new(), |p| format!(", a child of {p}"));
            return format!("draining{under}{unsound}");
        }
        let state = match self.state(n) {
            Some(State::Free) => "free",
            Some(State::Running) => "running",
            Some(State::Committed) => "committed",
            _ => "meaningless",
        };
        match self.parent(n) {
            Some(p) => format!("{state} under {p}"),
            None => state.to_string(),
        }
    }

    fn instrument_in_words(&self, i: u32) -> String {
        let mut parts = Vec::new();
        for (verb, set) in [("read", self.readers(i)), ("written", self.writers(i))] {
            if !set.is_empty() {
                let owners: Vec<String> = set.iter().map(|n| self.owner_in_words(n)).collect();
                parts.push(format!("{verb} by {}", owners.join(" and ")));
            }
        }
        parts.join(", ")
    }

    fn owner_in_words(&self, n: u32) -> String {
        match self.heir(n) {
            Some(heir) if heir == n => n.to_string(),
            Some(heir) => format!("{heir} (from {n})"),
            None => format!("nobody (from {n})"),
        }
    }
}
