//! The binding with the library behind it.

mod common;
mod documents;
mod folders;
mod garbage;
mod limits;
mod marks;
mod nodes;
mod positions;
mod raw;
mod reading;
mod refusals;
mod unreadable;
