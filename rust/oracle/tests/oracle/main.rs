//! Document 01's rows, edges, readings and refusals through the public operations,
//! its laws over generated runs, and document 02's numbers and count of entries.

mod derivations;
mod generated;
mod numbers;
mod refusals;
mod rows;
mod support;
mod written_entries;
