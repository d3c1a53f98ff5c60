//! Cells as they are drawn, in a frame and in its legend.

use std::collections::BTreeMap;

use crate::look::{Edges, Field, Look};
use crate::palette::PALETTE;
use crate::svg::{number, Page, Path};

/// The parts of a cell's width and height that a field leaves to the port's colour: on either side, and above the field or below
/// it. A field that a number is written on leaves less.
const FRAME: (f64, f64) = (0.25, 0.2);
const FRAME_OF_NUMBER: (f64, f64) = (0.06, 0.15);

/// What lies above a cell leaves the pointer to it, so that a browser shows the cell's title.
const NO_POINTER: &str = "pointer-events=\"none\"";

/// A cell: the number of its flow, 0 for idle, its look, its upper left corner, and the words that a browser shows at the pointer.
pub struct Tile {
    pub flow: usize,
    pub look: Look,
    pub corner: (f64, f64),
    pub title: Option<String>,
}

/// Cells of one width and height.
pub struct Tiles {
    pub size: (f64, f64),
    /// The size of their flows' numbers, none where they have no room for them.
    pub digits: Option<f64>,
    pub tiles: Vec<Tile>,
}

impl Tiles {
    pub fn draw(&self, page: &mut Page) {
        let (high, crisp) = (number(self.size.1), "shape-rendering=\"crispEdges\"");
        page.put(&format!("<g stroke-width=\"{high}\" {crisp}>"));
        for (port, colour) in PALETTE.iter().enumerate() {
            self.draw_port(page, port, colour.fill);
        }
        self.draw_fields(page);
        page.put("</g>");
        if let Some(digits) = self.digits {
            self.write_numbers(page, digits);
        }
    }

    /// The cells that have the colour of a port, a thick dash for each of them.
    fn draw_port(&self, page: &mut Page, port: usize, fill: &str) {
        let of_port = |tile: &&Tile| tile.look.port == port;
        let mut tiles = self.tiles.iter().filter(of_port).peekable();
        if tiles.peek().is_none() {
            return;
        }
        page.put(&format!("<g stroke=\"{fill}\">"));
        for tile in tiles {
            let mut path = Path::default();
            path.start(tile.corner.0, tile.corner.1 + self.size.1 / 2.0);
            path.across_by(self.size.0);
            page.titled_path(&path, tile.title.as_deref());
        }
        page.put("</g>");
    }

    /// A path for each look that has a field.
    fn draw_fields(&self, page: &mut Page) {
        let mut paths: BTreeMap<Look, (Field, Path)> = BTreeMap::new();
        for tile in &self.tiles {
            let Some(field) = tile.look.field() else {
                continue;
            };
            let (x, y) = tile.corner;
            let ((right, down), (wide, _)) = self.extent(field);
            let path = &mut paths.entry(tile.look).or_insert((field, Path::default())).1;
            path.start(x + right, y + down);
            path.across_by(wide);
        }
        for (look, (field, path)) in paths {
            let (tone, high) = (look.tone(field), number(self.extent(field).1 .1));
            let stroke = format!("stroke=\"{tone}\" stroke-width=\"{high}\"");
            page.path(&path, &format!("{stroke} {NO_POINTER}"));
        }
    }

    /// How far from the corner the middle of a field's left side is, and its width and height.
    fn extent(&self, field: Field) -> ((f64, f64), (f64, f64)) {
        let (wide, high) = self.size;
        let frame = self.digits.map_or(FRAME, |_| FRAME_OF_NUMBER);
        let (side, edge) = ((wide * frame.0).round(), (high * frame.1).round());
        let (top, bottom) = match field.edges {
            Edges::Both => (edge, high - edge),
            Edges::Upper => (edge, high),
            Edges::Lower => (0.0, high - edge),
        };
        let middle = (top + bottom) / 2.0;
        ((side, middle), (wide - 2.0 * side, bottom - top))
    }

    fn write_numbers(&self, page: &mut Page, size: f64) {
        let all = format!("font-size=\"{size}\" text-anchor=\"middle\" {NO_POINTER}");
        page.put(&format!("<g {all}>"));
        for ink in ["#000", "#fff"] {
            self.write_in(page, size, ink);
        }
        page.put("</g>");
    }

    /// The numbers that are written in this ink.
    fn write_in(&self, page: &mut Page, size: f64, ink: &str) {
        page.put(&format!("<g fill=\"{ink}\">"));
        let inked = |tile: &&Tile| tile.flow != 0 && tile.look.ink() == ink;
        for tile in self.tiles.iter().filter(inked) {
            let (x, y) = tile.corner;
            let middle = (x + self.size.0 / 2.0, y + self.size.1 / 2.0 + size * 0.36);
            page.text(middle, "", &tile.flow.to_string());
        }
        page.put("</g>");
    }
}

#[cfg(test)]
mod tests {
    use super::*;

    /// A cell of flow 3, in the colour of port 2.
    fn drawn(turn: usize, digits: Option<f64>) -> String {
        let tile = Tile {
            flow: 3,
            look: Look { port: 2, turn },
            corner: (10.0, 20.0),
            title: Some("flow 3".to_string()),
        };
        let tiles = Tiles {
            size: (40.0, 30.0),
            digits,
            tiles: vec![tile],
        };
        let mut page = Page::new((100.0, 100.0), "");
        tiles.draw(&mut page);
        page.finish()
    }

    const BELOW: &str =
        "<g stroke=\"#2f5fd0\">\n<path d=\"M10 35h40\"><title>flow 3</title></path>\n</g>";

    #[test]
    fn the_first_flow_of_a_pair_has_its_port_colour_alone() {
        let drawn = drawn(0, Some(10.0));
        assert!(drawn.contains(BELOW), "{drawn}");
        assert_eq!(drawn.matches("<path ").count(), 1);
        assert!(drawn.contains(">3</text>"));
    }

    #[test]
    fn the_next_ones_have_fields_over_it() {
        for (turn, path) in [
            (1, "M12 35h36\" stroke=\"#d1dcf5\" stroke-width=\"20\""),
            (2, "M12 35h36\" stroke=\"#0e1d3e\" stroke-width=\"20\""),
            (3, "M12 37.5h36\" stroke=\"#d1dcf5\" stroke-width=\"25\""),
            (4, "M12 37.5h36\" stroke=\"#0e1d3e\" stroke-width=\"25\""),
            (5, "M12 32.5h36\" stroke=\"#d1dcf5\" stroke-width=\"25\""),
            (6, "M12 32.5h36\" stroke=\"#0e1d3e\" stroke-width=\"25\""),
        ] {
            let drawn = drawn(turn, Some(10.0));
            let below = drawn.find(BELOW).expect(&drawn);
            assert!(below < drawn.find(path).expect(&drawn));
        }
    }

    #[test]
    fn without_a_number_a_field_has_more_of_the_port_colour_beside_it() {
        let drawn = drawn(1, None);
        assert!(drawn.contains("M20 35h20\" stroke=\"#d1dcf5\" stroke-width=\"18\""));
        assert!(!drawn.contains(">3</text>"));
    }

    /// A browser shows the title of what the pointer meets first.
    #[test]
    fn nothing_that_lies_above_a_cell_meets_the_pointer() {
        let drawn = drawn(1, Some(10.0));
        let (_, above) = drawn.split_once(BELOW).unwrap();
        let (field, numbers) = above.split_once("/>").unwrap();
        assert!(field.ends_with(NO_POINTER), "{drawn}");
        let (groups, _) = numbers.split_once("<text ").unwrap();
        assert!(groups.contains(NO_POINTER), "{drawn}");
    }
}
