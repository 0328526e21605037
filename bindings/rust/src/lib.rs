//! Compiler diagnostics, drawn over their sources.
//!
//! This crate has the types and the calls of `ariadne` 0.6.0, and stands in its place: a program changes
//! one line of its `Cargo.toml`. The pictures are those of libsewarqo.
//!
//! ```
//! use ariadne::{CharSet, Config, Label, Report, ReportKind, Source};
//!
//! let mut picture = Vec::new();
//! Report::build(ReportKind::Error, 0..0)
//!     .with_config(Config::new().with_color(false).with_char_set(CharSet::Ascii))
//!     .with_message("can't compare apples with oranges")
//!     .with_label(Label::new(0..5).with_message("This is an apple"))
//!     .finish()
//!     .write(Source::from("apple == orange;"), &mut picture)
//!     .unwrap();
//! assert_eq!(
//!     String::from_utf8(picture).unwrap(),
//!     [
//!         "Error: can't compare apples with oranges",
//!         "   ,-[ <unknown>:1:1 ]",
//!         "   |",
//!         " 1 | apple == orange;",
//!         "   | ^^|^^  ",
//!         "   |   `---- This is an apple",
//!         "---'",
//!         "",
//!     ]
//!     .join("\n")
//! );
//! ```
#![deny(missing_docs, unsafe_op_in_unsafe_fn)]

mod blocks;
mod cache;
mod call;
mod color;
mod config;
mod edit;
mod excerpt;
#[cfg(own_heap)]
mod heap;
mod held;
mod label;
mod lending;
mod members;
mod numbers;
mod paint;
mod prepared;
mod report;
mod source;
mod span;
mod table;
mod write;

pub use cache::{sources, Cache, FileCache, FnCache};
pub use color::{Color, ColorGenerator};
pub use config::{CharSet, Config, IndexType, LabelAttach};
pub use edit::{Edit, EditError};
pub use label::Label;
pub use paint::{Background, Fmt, Foreground};
pub use report::{Report, ReportBuilder, ReportKind};
pub use source::{Line, Source};
pub use span::Span;
