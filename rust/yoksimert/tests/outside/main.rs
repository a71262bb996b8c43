//! What `./package` writes, used in folders outside the repository: a service in Rust and one in C, the sentences that stop a build, the
//! documentation without an archive, and archives of another version.

mod c;
mod folder;
mod package;
mod rust;
mod version;
