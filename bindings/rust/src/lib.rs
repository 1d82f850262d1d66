#![doc = include_str!("../README.md")]
#![deny(unsafe_code)]
#![warn(missing_docs)]

#[forbid(unsafe_code)]
mod attributes;
#[forbid(unsafe_code)]
mod defaults;
#[forbid(unsafe_code)]
mod error;
#[allow(unsafe_code)]
mod library;
#[forbid(unsafe_code)]
mod matcher;
#[forbid(unsafe_code)]
mod search;
#[forbid(unsafe_code)]
mod text;
#[forbid(unsafe_code)]
mod walk;

pub use attributes::{LeftOut, Place, Reason};
pub use defaults::Defaults;
pub use error::{Error, FaultKind};
pub use matcher::{Match, MatchKind, Matcher};
pub use search::{Builder, Search};
pub use text::Text;
pub use walk::Walk;
