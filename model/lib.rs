//! A second implementation of document 01, and of requests a) to d) and f) to k) of 02, in plain Rust, written from the
//! documents and not from the proved code.

pub mod batch;
pub mod batch_samples;
pub mod build_cases;
pub mod build_list;
pub mod build_list_samples;
mod build_places;
pub mod build_run;
pub mod builder;
pub mod cases;
pub mod check;
pub mod explain;
pub mod header;
mod header_lists;
mod header_names;
pub mod lookup;
pub mod lookup_samples;
mod named;
pub mod numbers;
pub mod plain;
pub mod random;
pub mod ranked_samples;
pub mod reader;
pub mod rescue;
pub mod rescue_samples;
pub mod resolve;
pub mod resolve_samples;
pub mod rules;
pub mod samples;
pub mod streams;
pub mod table;
mod tree;
pub mod units;
