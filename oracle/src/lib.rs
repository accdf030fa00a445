//! The Rust being ported, compiled as it stands, and what the drivers share.
//!
//! The modules `ad` and `utils` are the files of the folder that `INGTHABOR_RUST` names; build.rs
//! writes their paths. The others are ours.

pub mod draw;
pub mod nodes;
pub mod operations;
pub mod random;
pub mod request;
pub mod session;
pub mod words;

include!(concat!(env!("OUT_DIR"), "/rust.rs"));
