//! What is promised of a run, in the words of the documents ("A run" in `docs/FORMATS.md`, "The
//! promise of a run" in `docs/RULES.md`): when it is accepted, what each refusal tells, and what may
//! change without changing the statement.
//!
//! Nothing here follows the steps of the work: an input is cut into lines and sheets, and each
//! condition looks at them by itself. Of the version beside it only `Refused` and the names of its
//! numbers are used.

mod accepted;
mod causes;
mod delivered;
mod forms;
mod same;
mod sheets;
mod told;

pub use accepted::nothing_is_wrong;
pub use causes::Causes;
pub use delivered::{Block, Delivered, Position};
pub use same::Text;
pub use told::{Told, ToldRow};
