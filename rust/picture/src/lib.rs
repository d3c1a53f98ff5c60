//! Draws the frame of a reservation sheet, as SVG 1.1: slot by slot, by its inputs or by its outputs, or how far a flow, an input or an
//! output is ahead of its share along the frame, as Service count says.
//!
//! The frame is the one that Build makes of the sheet, and by its outputs the one that Turn writes. The same sheet gives the same picture,
//! byte for byte.

#![forbid(unsafe_code)]

mod chart;
mod course;
mod frame;
mod grid;
mod legend;
mod look;
mod palette;
mod refused;
mod request;
mod sheet;
mod svg;
mod tiles;

pub use chart::draw_course;
pub use course::Course;
pub use frame::Frame;
pub use grid::draw_frame;
pub use refused::Refused;
pub use request::{Picture, Request, ADVICE, HELP};
pub use sheet::{Sheet, LONGEST_SHEET};

use frame_builder::Side;

/// Why there is no picture: the sheet is refused, or it does not have what is asked for, as a sentence says.
#[derive(Debug, Clone, PartialEq, Eq)]
pub enum NoPicture {
    Refused(Refused),
    Missing(String),
}

impl From<Refused> for NoPicture {
    fn from(refused: Refused) -> NoPicture {
        NoPicture::Refused(refused)
    }
}

/// The picture that is asked for of a sheet's frame.
pub fn draw(picture: Picture, text: &[u8]) -> Result<String, NoPicture> {
    let frame = Frame::build(Sheet::read(text)?).map_err(Refused::Call)?;
    match picture {
        Picture::Frame(Side::Input) => Ok(draw_frame(&frame)),
        Picture::Frame(Side::Output) => Ok(draw_frame(&frame.turned().map_err(Refused::Call)?)),
        Picture::Course(who) => {
            let course = Course::of(&frame, who).map_err(NoPicture::Missing)?;
            Ok(draw_course(&course))
        }
    }
}
