//! Document 01 and requests S-1 to S-8 of document 02 once more, slow and plain, for comparison. Nothing is shared with the library, and definitions are
//! followed as they are worded, but for two:
//!
//! - Above 64 symbols `Common` stands in for the wording of the standard factorization, of listed cuts and of the longest Lyndon words, which takes
//!   up to the cube of the length: for the longest drive of equal samples a second, and there are thousands of calls. Up to 64 symbols the two
//!   are compared.
//! - Whether a table is that of some drive is not tried drive by drive: it can only be the one that its last rule spells.

mod census;
mod order;
mod profile;
mod services;
mod steps;
mod tables;
mod words;

pub use order::Order;
pub use services::Naive;
pub use steps::{from_steps, to_steps};
pub use tables::table_of;
