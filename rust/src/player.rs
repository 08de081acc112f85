use std::io::{self, Write};

use crate::{check_library, image, Bench, Refusal};

/// The most bytes that one call of the library takes.
const AT_ONCE: usize = 4096;

/// Plays a trace: lines of hexadecimal in, for each line its answer out, two digits and a newline.
///
/// `01nn` open top, `02nnpp` open sub, `03aaii` read, `04aaii` write, `05aa` commit, `06aa` abort, `07aaii` quiet. Any other line gets `08` and changes
/// nothing. The input may be cut anywhere and lines may be of any length.
///
/// A refused line is answered like any other. The only error of playing itself is [`Refusal::OtherLibrary`], where [`check_library`] gives it.
///
/// ```
/// use dikothelm::Player;
///
/// let mut player = Player::new();
/// let mut answers = player.feed(b"0101\n020201\n0203")?;
/// answers.extend(player.feed(b"01\n040205\n030305")?);
/// answers.extend(player.finish()?);
/// assert_eq!(answers, b"00\n00\n00\n00\n06\n");
/// # Ok::<(), dikothelm::Refusal>(())
/// ```
#[derive(Clone, Debug, Default, PartialEq, Eq)]
pub struct Player {
    bench: Bench,
    /// Digits and value of a line that has begun; what the last call took and wrote.
    progress: [u64; 4],
}

impl Player {
    /// A player with an empty bench.
    ///
    /// ```
    /// assert_eq!(dikothelm::Player::new().bench(), &dikothelm::Bench::new());
    /// ```
    #[must_use]
    pub const fn new() -> Player {
        Player::on(Bench::new())
    }

    /// A player that goes on from a bench. On an unsound one every line with a request gets `07`.
    ///
    /// ```
    /// use dikothelm::{Bench, Player};
    ///
    /// let mut bench = Bench::new();
    /// bench.open_top(1)?;
    /// assert_eq!(Player::on(bench).feed(b"0101\n")?, b"03\n");
    /// # Ok::<(), dikothelm::Refusal>(())
    /// ```
    #[must_use]
    pub const fn on(bench: Bench) -> Player {
        Player { bench, progress: [0; 4] }
    }

    /// Plays the bytes and returns the answers of the lines that end in them.
    ///
    /// # Errors
    /// [`OtherLibrary`](Refusal::OtherLibrary).
    ///
    /// ```
    /// let mut player = dikothelm::Player::new();
    /// assert_eq!(player.feed(b"01")?, b"");
    /// assert_eq!(player.feed(b"07\n")?, b"00\n");
    /// # Ok::<(), dikothelm::Refusal>(())
    /// ```
    pub fn feed(&mut self, input: &[u8]) -> Result<Vec<u8>, Refusal> {
        let mut answers = Vec::new();
        self.play(input, |said| {
            answers.extend_from_slice(said);
            Ok::<(), Refusal>(())
        })?;
        Ok(answers)
    }

    /// Plays the bytes and writes the answers of the lines that end in them.
    ///
    /// # Errors
    /// The writer's: lines whose answers it didn't take may have been played. [`OtherLibrary`](Refusal::OtherLibrary).
    ///
    /// ```
    /// let mut player = dikothelm::Player::new();
    /// player.feed_into(b"0107\n", &mut std::io::stdout())?;
    /// # Ok::<(), std::io::Error>(())
    /// ```
    pub fn feed_into<W: Write + ?Sized>(&mut self, input: &[u8], answers: &mut W) -> io::Result<()> {
        self.play(input, |said| answers.write_all(said))
    }

    /// Ends the input: a last line that lacks its newline is played if it has a character, and its answer returned. An input that could not be read has not
    /// ended, and a line that was cut short there may be a request: don't call this then.
    ///
    /// # Errors
    /// [`OtherLibrary`](Refusal::OtherLibrary).
    ///
    /// ```
    /// let mut player = dikothelm::Player::new();
    /// assert_eq!(player.feed(b"0107\n0108")?, b"00\n");
    /// assert_eq!(player.finish()?, b"00\n");
    /// assert_eq!(player.finish()?, b"");
    /// # Ok::<(), dikothelm::Refusal>(())
    /// ```
    pub fn finish(&mut self) -> Result<Vec<u8>, Refusal> {
        check_library()?;
        let mut out = [0; 3];
        let (actions, owners) = self.bench.image_mut();
        let answer = image::finish(actions, owners, &mut self.progress, &mut out);
        Ok(self.said(answer, &out)?.to_vec())
    }

    /// As [`finish`](Player::finish), and writes the answer.
    ///
    /// # Errors
    /// The writer's: the line has been played. [`OtherLibrary`](Refusal::OtherLibrary).
    ///
    /// ```
    /// let mut answers = Vec::new();
    /// let mut player = dikothelm::Player::new();
    /// player.feed_into(b"0107\n0109", &mut answers)?;
    /// player.finish_into(&mut answers)?;
    /// assert_eq!(answers, b"00\n00\n");
    /// # Ok::<(), std::io::Error>(())
    /// ```
    pub fn finish_into<W: Write + ?Sized>(&mut self, answers: &mut W) -> io::Result<()> {
        answers.write_all(&self.finish()?)
    }

    /// The bench after the lines played so far.
    ///
    /// ```
    /// let mut player = dikothelm::Player::new();
    /// assert_eq!(player.feed(b"0107\n040705\n")?, b"00\n00\n");
    /// assert!(player.bench().writers(5).contains(7));
    /// # Ok::<(), dikothelm::Refusal>(())
    /// ```
    #[must_use]
    pub const fn bench(&self) -> &Bench {
        &self.bench
    }

    /// The bench after the lines played so far; a line that has begun is dropped.
    ///
    /// ```
    /// let mut player = dikothelm::Player::new();
    /// assert_eq!(player.feed(b"0107\n01")?, b"00\n");
    /// let mut bench = player.into_bench();
    /// assert!(bench.open_top(7).is_err());
    /// # Ok::<(), dikothelm::Refusal>(())
    /// ```
    #[must_use]
    pub fn into_bench(self) -> Bench {
        self.bench
    }

    /// Plays the bytes, chunk by chunk, and hands over the answers of each.
    fn play<E: From<Refusal>>(&mut self, input: &[u8], mut hand_over: impl FnMut(&[u8]) -> Result<(), E>) -> Result<(), E> {
        let mut out = [0; 3 * AT_ONCE];
        let mut rest = input;
        while !rest.is_empty() {
            check_library()?;
            let (actions, owners) = self.bench.image_mut();
            let answer = image::play(actions, owners, &mut self.progress, rest, &mut out);
            hand_over(self.said(answer, &out)?)?;
            // The proved library always takes something here, and never more than there is.
            let taken = self.progress[2] as usize;
            rest = rest.get(taken..).filter(|_| taken > 0).ok_or(Refusal::OtherLibrary)?;
        }
        Ok(())
    }

    /// What the last call wrote, if it is what the proved library could have written.
    fn said<'a>(&self, answer: u8, out: &'a [u8]) -> Result<&'a [u8], Refusal> {
        out.get(..self.progress[3] as usize).filter(|_| answer == 0).ok_or(Refusal::OtherLibrary)
    }
}
