//! Random loads, frames and sheets, the same for the same seed.

#![forbid(unsafe_code)]

/// An enum of kinds, each with the name it goes by in reports.
#[macro_export]
macro_rules! kinds {
    ($(#[$note:meta])* $name:ident { $($case:ident = $text:literal,)* }) => {
        $(#[$note])*
        #[derive(Clone, Copy, Debug, PartialEq, Eq)]
        pub enum $name {
            $($case,)*
        }

        impl $name {
            pub const ALL: &'static [$name] = &[$($name::$case,)*];

            pub fn name(self) -> &'static str {
                match self {
                    $($name::$case => $text,)*
                }
            }
        }
    };
}

mod by_flow;
mod damage;
mod followed;
mod grid;
mod hostile;
mod ill_formed;
mod legal;
mod links;
mod list;
mod load;
mod random;
mod seam;
mod sheet;
mod uneven;

pub use damage::{damage, damage_by_outputs, unbalance_total, Block, Damage};
pub use followed::{Company, Followed};
pub use hostile::{
    hostile_length, hostile_limit, hostile_link, hostile_number, hostile_port, LengthKind,
    LimitKind, HOSTILE,
};
pub use ill_formed::junk_number;
pub use legal::legal_frame;
pub use links::Limits;
pub use list::{
    flows_of, flows_of_matrix, list_of, Flow, Listing, FLOW_NUMBERS, LINKS, MOST_FLOWS,
};
pub use load::{
    full_load, full_load_of_flows, junk_of_shape, load, load_of_shape, load_of_total, random_shape,
    Call, LoadKind, Shape,
};
pub use random::Random;
pub use seam::{load_alone, load_beside, Seam, SEAMS};
pub use sheet::{sheet, SheetKind};
pub use uneven::{uneven, Uneven};
