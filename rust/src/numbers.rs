use std::fmt;

/// A set of action numbers.
///
/// ```
/// use dikothelm::Bench;
///
/// let mut bench = Bench::new();
/// bench.open_top(1)?;
/// bench.open_top(9)?;
/// bench.read(1, 5)?;
/// bench.read(9, 5)?;
/// let readers = bench.readers(5);
/// assert!(readers.contains(9));
/// assert_eq!(readers.iter().collect::<Vec<_>>(), [1, 9]);
/// assert_eq!(format!("{readers:?}"), "{1, 9}");
/// # Ok::<(), dikothelm::Refusal>(())
/// ```
#[derive(Clone, Copy, Default, PartialEq, Eq, Hash)]
pub struct Numbers(u64);

impl Numbers {
    /// The set as a word: bit k is number k.
    ///
    /// ```
    /// assert_eq!(dikothelm::Numbers::from(6).bits(), 6);
    /// ```
    #[must_use]
    pub const fn bits(self) -> u64 {
        self.0
    }

    /// Whether n is in the set; a number above 63 never is.
    ///
    /// ```
    /// let set = dikothelm::Numbers::from(6);
    /// assert!(set.contains(1) && set.contains(2));
    /// assert!(!set.contains(3) && !set.contains(64));
    /// ```
    #[must_use]
    pub const fn contains(self, n: u32) -> bool {
        n < 64 && self.0 >> n & 1 == 1
    }

    /// How many numbers are in the set.
    ///
    /// ```
    /// assert_eq!(dikothelm::Numbers::from(6).len(), 2);
    /// ```
    #[must_use]
    pub const fn len(self) -> usize {
        self.0.count_ones() as usize
    }

    /// Whether no number is in the set.
    ///
    /// ```
    /// assert!(dikothelm::Bench::new().readers(5).is_empty());
    /// ```
    #[must_use]
    pub const fn is_empty(self) -> bool {
        self.0 == 0
    }

    /// The numbers, rising.
    ///
    /// ```
    /// assert_eq!(dikothelm::Numbers::from(6).iter().sum::<u32>(), 3);
    /// ```
    #[must_use]
    pub const fn iter(self) -> Members {
        Members(self.0)
    }
}

impl From<u64> for Numbers {
    fn from(bits: u64) -> Numbers {
        Numbers(bits)
    }
}

impl IntoIterator for Numbers {
    type Item = u32;
    type IntoIter = Members;

    fn into_iter(self) -> Members {
        self.iter()
    }
}

impl fmt::Debug for Numbers {
    fn fmt(&self, f: &mut fmt::Formatter<'_>) -> fmt::Result {
        f.debug_set().entries(self.iter()).finish()
    }
}

/// The numbers of a set, rising; what [`Numbers::iter`] gives.
///
/// ```
/// let mut members = dikothelm::Numbers::from(1 << 63).iter();
/// assert_eq!(members.next(), Some(63));
/// assert_eq!(members.next(), None);
/// ```
#[derive(Clone, Debug)]
pub struct Members(u64);

impl Iterator for Members {
    type Item = u32;

    fn next(&mut self) -> Option<u32> {
        if self.0 == 0 {
            return None;
        }
        let n = self.0.trailing_zeros();
        self.0 &= self.0 - 1;
        Some(n)
    }
}
