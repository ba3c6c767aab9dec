//! The library that `include/slatewhim.h` declares, linked and compared with the second tariff book
//! call by call.
//!
//! The calls are those of the random scripts. After each of them the answer has to be the same in
//! every number, and the image of the book has to be what the header says of it: untouched where
//! nothing was changed, the same words for the same book by whatever road it came there, and a book
//! by its own check.

pub mod bars;
pub mod call;
pub mod compared;
pub mod header;
pub mod library;
mod long_runs;
mod roads;
pub mod runs;

pub use call::{Answer, Call, Word};
pub use header::Account;
pub use library::{Library, Linked};
