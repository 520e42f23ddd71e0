//! Another implementation of papers/01-scope.md: literal, slow, and sharing nothing with the product.
//! It makes the cases that the product is run on, and what must come out.

#![forbid(unsafe_code)]

pub mod batch;
pub mod bounds;
pub mod cases;
pub mod edits;
pub mod examples;
pub mod jitter;
pub mod memory;
pub mod next;
pub mod numeral;
pub mod overload;
pub mod port;
pub mod random;
pub mod record;
pub mod recordings;
pub mod redundancy;
pub mod replay;
pub mod sheet;
pub mod table;
pub mod watch;
