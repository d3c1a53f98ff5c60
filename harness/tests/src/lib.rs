//! Random tests that hold any frame builder against the reference.

#![forbid(unsafe_code)]

pub mod broken;
mod build_case;
mod chain_case;
pub mod command;
mod depth_case;
mod hits;
mod hostile_call;
mod hostile_case;
mod inspect_case;
mod kind;
mod lead_case;
mod lent;
mod query_case;
mod queue_case;
mod row_case;
mod runner;
mod share_case;
mod sheet_case;
mod summary;
mod turn_case;
mod verdict;
mod wait_case;

pub use hits::Hits;
pub use hostile_call::HostileKind;
pub use hostile_case::{run_hostile, Face};
pub use kind::Kind;
pub use query_case::any_entries;
pub use runner::{run, Report, Settings};
pub use wait_case::{check_each_cell, check_paced, check_waits};
