//! The crate against a model of its own: seeded requests, lists of them, saved texts, traces and images of anything. A failure names its seed.

mod draw;
mod images;
mod lists;
mod plain;
mod player;
mod record;
mod requests;
mod saved;
