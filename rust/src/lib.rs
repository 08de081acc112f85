//! A lock table for a test bench of 128 instruments and 64 action numbers, written in Rattle and proved.
//!
//! Actions nest, siblings run side by side, and instruments are locked by Moss's rules: an action may read what only itself and its ancestors write, and
//! may write what only itself and its ancestors read or write. A committed subaction's locks count as its parent's. An aborted action that owns something
//! drains: its locks stay, in everybody's way, until each of its instruments is said to be quiet.
//!
//! ```
//! use dikothelm::{Bench, Refusal};
//!
//! let mut bench = Bench::new();
//! bench.open_top(1)?;
//! bench.open_sub(2, 1)?;
//! bench.open_sub(3, 1)?;
//! bench.write(2, 5)?; // 2 writes instrument 5
//! assert_eq!(bench.read(3, 5), Err(Refusal::NotGranted)); // 2 is a sibling of 3
//! bench.commit(2)?; // 1 inherits
//! bench.read(3, 5)?; // now an ancestor of 3 owns it
//! bench.abort(3)?; // 3 drains until instrument 5 is quiet
//! assert_eq!(bench.write(1, 5), Err(Refusal::NotGranted));
//! bench.quiet(3, 5)?;
//! bench.write(1, 5)?;
//! # Ok::<(), Refusal>(())
//! ```
//!
//! The seven requests, lists of them in one call, saving, loading and playing are the proved library's; what this crate adds around them is plain Rust,
//! tested and not proved. Nothing panics, whatever numbers are asked, whatever a record holds, and whatever library is linked.

#![deny(missing_docs)]
#![deny(unsafe_code)]

mod answer;
mod bench;
#[allow(unsafe_code)]
pub mod image;
mod numbers;
mod player;
mod request;
mod version;

pub use answer::{Answer, Refusal, UnknownNumber};
pub use bench::{Bench, State};
pub use numbers::{Members, Numbers};
pub use player::Player;
pub use request::Request;
pub use version::{check_library, VERSION};

/// How many action numbers there are: 0 to 63.
///
/// ```
/// let mut bench = dikothelm::Bench::new();
/// assert!(bench.open_top(dikothelm::ACTIONS - 1).is_ok());
/// assert!(bench.open_top(dikothelm::ACTIONS).is_err());
/// ```
pub const ACTIONS: u32 = 64;

/// How many instruments there are: 0 to 127.
///
/// ```
/// let mut bench = dikothelm::Bench::new();
/// bench.open_top(0)?;
/// bench.read(0, dikothelm::INSTRUMENTS - 1)?;
/// assert!(bench.read(0, dikothelm::INSTRUMENTS).is_err());
/// # Ok::<(), dikothelm::Refusal>(())
/// ```
pub const INSTRUMENTS: u32 = 128;

/// A saved bench has at most so many bytes: 64 lines of 9 and 128 lines of 37.
///
/// ```
/// assert_eq!(dikothelm::LONGEST_TEXT, 64 * 9 + 128 * 37);
/// ```
pub const LONGEST_TEXT: usize = 5312;

/// A list of requests in one call has at most so many.
///
/// ```
/// use dikothelm::{Bench, Refusal, Request, LONGEST_LIST};
///
/// let mut list = [Request::open_top(1); LONGEST_LIST + 1];
/// assert_eq!(Bench::new().play_list(&mut list), Err(Refusal::TooLong));
/// assert_eq!(Bench::new().play_list(&mut list[1..]), Ok(()));
/// ```
pub const LONGEST_LIST: usize = 32;
