//! One file for each operation.

mod add_change;
mod add_piece;
mod compare;
mod derive;
mod fresh;
mod look_up;
mod number;
mod read;
mod search;
mod text;

pub use add_change::add_change;
pub use add_piece::add_piece;
pub use compare::compare;
pub use derive::derive;
pub use fresh::{fresh, fresh_real, recorder_fresh};
pub use look_up::look_up;
pub use number::number;
pub use read::read;
pub use search::search;
pub use text::text;
