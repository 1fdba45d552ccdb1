//! The core trace of Miden VM programs from Rust: safe calls of the proved library, its comparison with the listed Rust, and that of its
//! reader, and of its writer and reader of dumps, with others in plain Rust; and the same run written at several fragment sizes.

pub mod answers;
pub mod calls;
pub mod checker;
pub mod clock;
#[cfg(all(listed, archive))]
pub mod compare;
pub mod dump;
#[cfg(archive)]
pub mod dumping;
#[cfg(archive)]
pub mod exports;
pub mod forest;
#[cfg(listed)]
pub mod listed;
pub mod listing;
#[cfg(archive)]
pub mod loops;
pub mod overflow;
pub mod profile;
pub mod random;
#[cfg(all(listed, archive))]
pub mod reading;
#[cfg(archive)]
pub mod sizes;
pub mod stack;
#[cfg(archive)]
pub mod waves;
pub mod words;
