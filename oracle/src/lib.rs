//! The published usfm3 validator as the reference that a port is compared with, and documents to compare.
//!
//! The published modules stand at the root of this crate, since their own paths begin with
//! `crate::`. The build assembles them (see `build.rs`); the modules named here are ours.

include!(concat!(env!("OUT_DIR"), "/published.rs"));

mod stubs;
#[doc(hidden)]
pub use stubs::{Document, Version};

pub mod account;
pub mod arguments;
pub mod books;
pub mod coverage;
pub mod differ;
pub mod document;
pub mod drafts;
pub mod examples;
pub mod exhaustive;
pub mod faults;
pub mod features;
pub mod forms;
pub mod fuzz;
pub mod generate;
pub mod lent;
#[cfg(feature = "library")]
pub mod library;
pub mod listing;
pub mod marks;
pub mod pages;
pub mod parts;
pub mod published;
pub mod reached;
pub mod reading;
pub mod recorded;
pub mod refusals;
pub mod requests;
pub mod rng;
pub mod samples;
pub mod tallies;
pub mod texts;
pub mod timed;
pub mod unreadable;
#[cfg(feature = "library")]
pub mod whole;
