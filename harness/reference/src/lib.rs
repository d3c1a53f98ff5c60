//! A second frame builder, written from the rules alone, to test others against.

#![forbid(unsafe_code)]

mod admission;
mod build;
mod depth;
mod flow;
mod inspect;
pub mod order;
pub mod page;
mod query;
pub mod queue;
mod refusal;
mod sheet;
mod side;
pub mod stray;
mod turn;
pub mod wait;
pub mod wire;
pub mod work;

pub use admission::admit;
pub use build::build;
pub use depth::{depth, Depth};
pub use flow::{slots_each, Limits, LINKS, MOST_FLOWS};
pub use inspect::{inspect, Inspection};
pub use query::{service_count, slot_view, Class, Count, LONGEST_RUN};
pub use refusal::Refusal;
pub use sheet::{respond, LONGEST_SHEET};
pub use side::Side;
pub use turn::turn;
