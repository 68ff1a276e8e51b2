//! Check, read and build Common Data Format (CDF) streams: family trees, function calls and files as nested units. The work is done by an
//! archive of which every function is proved to answer as the format demands, for any bytes; this crate is its safe face.
//!
//! - [`check`] says whether bytes are a stream, [`explain`] why they are not;
//! - [`Reader`] hands out the units, [`Builder`] writes them, one by one or a list at once; [`TableReader`] hands out the same by a table of states, and tells these;
//! - [`lookup`] finds a field's value in the first of two streams that has it, [`listing`] is a stream as lines of numbers;
//! - [`rescue`] makes an E/R group of what is whole in a broken one;
//! - [`resolve`] says which template of a group each entity key with a temporary key means.
//!
//! The archive, `libcdf.a`, is made by `./library` at the top of the repository; `CDF_LIB_DIR` names another folder that has it.
#![deny(unsafe_code)]

mod batch;
mod builder;
mod reader;
mod refusal;
mod rescue;
mod resolve;
mod state;
#[allow(unsafe_code)]
mod sys;
mod table;
mod tools;
mod unit;

pub use batch::{BatchRefusal, Request};
pub use builder::{Builder, Root};
pub use reader::Reader;
pub use refusal::Refusal;
pub use rescue::{rescue, Rescued};
pub use resolve::resolve;
pub use state::State;
pub use table::TableReader;
pub use tools::{check, explain, listing, lookup, version, Explanation, Found, Key, OpenUnit, Which};
pub use unit::{Action, Id, Unit, NAME_MOST, VALUE_MOST};
