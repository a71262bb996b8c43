//! The safe types: document 01's rows, growth to the maximum, and generated calls beside the oracle.

mod anything;
mod bits;
mod derived;
mod flat;
mod growth;
mod hostile;
mod judged;
mod numbers;
mod random;
mod records;
mod resumed;
mod rows;
mod runs;
mod scroll;
mod stored;
mod values;
mod writer;
