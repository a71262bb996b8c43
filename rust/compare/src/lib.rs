//! Calls of document 01's operations: how they are made up, which of them wellen is a reference for, how their
//! outcomes are compared, and how they are stored as answers. What concerns one operation alone is in its file in
//! `operations`.

pub mod arguments;
pub mod by_archive;
pub mod by_wellen;
pub mod check;
pub mod domain;
pub mod generate;
pub mod long;
pub mod operation;
pub mod operations;
pub mod random;
pub mod record;
pub mod rows;
pub mod shrink;
pub mod stored;
