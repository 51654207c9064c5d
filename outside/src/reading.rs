//! The four calls as document 01 and requests T-01 to T-03 of document 02 have them, in plain Rust, written from the documents alone.

pub use crate::check::{check, Refusal, ABSENT};
pub use crate::sheet::{answer, lines, Answer};
pub use crate::slim::{copy, slim};
pub use crate::title::{title, TitlePart};
