//! The legend of a frame: a colour for each port of the other side, and each flow with its number, its ports and its cells.

use frame_builder::Flow;

use crate::look::Look;
use crate::palette::PALETTE;
use crate::svg::{count, width_of, Page, Path};
use crate::tiles::{Tile, Tiles};

/// The colour of a port, and what it takes with the white beside it.
const SWATCH: (f64, f64) = (26.0, 18.0);
const SWATCH_STEP: f64 = 28.0;
/// The sizes that the flows' words can have, the smallest last.
const SIZES: [f64; 3] = [12.0, 11.0, 10.0];
/// The height of a line above the flows, and the white above the first and below the last flow.
const LINE: f64 = 16.0;
const WHITE: f64 = 10.0;

/// The width that the colours of so many ports take.
pub fn width_of_ports(ports: usize) -> f64 {
    160.0 + ports as f64 * SWATCH_STEP
}

/// The colours of the ports of this name with their numbers, and that of idle.
pub fn draw_ports(page: &mut Page, (left, top): (f64, f64), name: &str, ports: usize) {
    let base = top + 13.0;
    let first = left + 46.0;
    page.text((left, base), "", name);
    for (place, colour) in PALETTE[1..=ports].iter().enumerate() {
        let x = first + place as f64 * SWATCH_STEP;
        draw_swatch(page, (x, top), colour.fill);
        let attributes = format!("text-anchor=\"middle\" fill=\"{}\"", colour.ink);
        let middle = (x + SWATCH.0 / 2.0, base);
        page.text(middle, &attributes, &(place + 1).to_string());
    }
    let x = first + ports as f64 * SWATCH_STEP + 12.0;
    draw_swatch(page, (x, top), PALETTE[0].fill);
    page.text((x + SWATCH.0 + 6.0, base), "", "idle");
}

fn draw_swatch(page: &mut Page, (x, top): (f64, f64), fill: &str) {
    let (wide, high) = SWATCH;
    let mut path = Path::default();
    path.start(x, top + high / 2.0);
    path.across_by(wide);
    page.path(&path, &format!("stroke=\"{fill}\" stroke-width=\"{high}\""));
}

/// Where the flows of a list are, below the picture of its frame: in columns, by rising number.
pub struct Flows<'a> {
    list: &'a [Flow],
    /// That of idle first.
    looks: &'a [Look],
    /// What the ports are called whose colours they have.
    name: &'static str,
    left: f64,
    top: f64,
    /// The size of their words.
    size: f64,
    /// The flows of a column.
    rows: usize,
}

impl<'a> Flows<'a> {
    /// As many columns as the width has room for, at the largest size at which they are not higher than the picture above them, which
    /// is as high as their top. Where there is none, columns as high as the picture, of the smallest size, and wider than the width.
    pub fn of(
        list: &'a [Flow],
        (looks, name): (&'a [Look], &'static str),
        corner: (f64, f64),
        width: f64,
    ) -> Flows<'a> {
        let (left, top) = corner;
        let laid = |size: f64, rows: usize| Flows {
            list,
            looks,
            name,
            left,
            top,
            size,
            rows,
        };
        let within = |size: f64| {
            let across = (width + size) / laid(size, 1).column();
            laid(size, list.len().div_ceil(across.floor().max(1.0) as usize))
        };
        let low = |flows: &Flows| flows.height() <= top;
        SIZES.into_iter().map(within).find(low).unwrap_or_else(|| {
            let smallest = laid(SIZES[SIZES.len() - 1], 1);
            let room = top - smallest.above() - WHITE;
            laid(smallest.size, (room / smallest.step()) as usize)
        })
    }

    /// What they take down the page, with the white below them.
    pub fn height(&self) -> f64 {
        match self.list.len() {
            0 => 0.0,
            _ => self.above() + self.rows as f64 * self.step() + WHITE,
        }
    }

    /// What they take across the page.
    pub fn width(&self) -> f64 {
        let columns = self.list.len().div_ceil(self.rows.max(1));
        columns as f64 * self.column() - self.size
    }

    /// The width and the height of a flow's colour.
    fn swatch(&self) -> (f64, f64) {
        ((2.2 * self.size).floor(), self.size + 2.0)
    }

    /// From a flow to the one below it.
    fn step(&self) -> f64 {
        self.size + 4.0
    }

    /// From a column to the next one.
    fn column(&self) -> f64 {
        let widest = self.list.iter().map(|flow| width_of(&words_of(flow)));
        let words = widest.fold(0.0, f64::max) * self.size;
        (self.swatch().0 + 5.0 + words + self.size).ceil()
    }

    /// The lines above the flows.
    fn lines(&self) -> Vec<String> {
        let all = format!(
            "flow: its number in the colour of its {}, input \u{2192} output, cells in the frame",
            self.name
        );
        let fields = "a lighter or darker field: a further flow of the same input and output";
        let several = self.looks.iter().any(|look| look.field().is_some());
        if several {
            vec![all, fields.to_string()]
        } else {
            vec![all]
        }
    }

    /// What the lines above the flows take.
    fn above(&self) -> f64 {
        self.lines().len() as f64 * LINE + WHITE
    }

    /// The upper left corner of the colour of the flow at each place.
    fn corners(&self) -> impl Iterator<Item = (f64, f64)> + '_ {
        let (step, column, first) = (self.step(), self.column(), self.top + self.above());
        (0..self.list.len()).map(move |place| {
            let x = self.left + (place / self.rows) as f64 * column;
            (x, first + (place % self.rows) as f64 * step)
        })
    }

    pub fn draw(&self, page: &mut Page) {
        if self.list.is_empty() {
            return;
        }
        for (place, words) in self.lines().into_iter().enumerate() {
            let base = self.top + 13.0 + place as f64 * LINE;
            page.text((self.left, base), "", &words);
        }
        self.tiles().draw(page);
        let (wide, high) = self.swatch();
        page.put(&format!("<g font-size=\"{}\">", self.size));
        for (flow, (x, y)) in self.list.iter().zip(self.corners()) {
            let base = y + high / 2.0 + self.size * 0.36;
            page.text((x + wide + 5.0, base), "", &words_of(flow));
        }
        page.put("</g>");
    }

    /// The colours of the flows.
    fn tiles(&self) -> Tiles {
        let looks = (0..).zip(self.looks).skip(1);
        let tiles = looks
            .zip(self.corners())
            .map(|((flow, &look), corner)| Tile {
                flow,
                look,
                corner,
                title: None,
            });
        Tiles {
            size: self.swatch(),
            digits: Some(self.size - 1.0),
            tiles: tiles.collect(),
        }
    }
}

fn words_of(flow: &Flow) -> String {
    let cells = count(flow.cells.into(), "cell");
    format!("{} \u{2192} {}, {cells}", flow.input, flow.output)
}

#[cfg(test)]
mod tests {
    use frame_builder::Side;

    use super::*;
    use crate::look::looks_of;

    /// The looks of a list's flows in a frame on the input side.
    fn looks_on_input_side(list: &[Flow]) -> Vec<Look> {
        looks_of(list, Side::Input)
    }

    #[test]
    fn flows_are_laid_in_columns() {
        let list = [Flow::new(1, 2, 3); 9];
        let looks = looks_on_input_side(&list);
        let flows = Flows::of(&list, (&looks, "output"), (20.0, 200.0), 500.0);
        let column = flows.column();
        let corners: Vec<_> = flows.corners().collect();
        let first = 200.0 + 2.0 * LINE + WHITE;
        assert_eq!(corners[0], (20.0, first));
        assert_eq!(corners[2], (20.0, first + 32.0));
        assert_eq!(corners[3], (20.0 + column, first));
        assert_eq!(corners[8], (20.0 + 2.0 * column, first + 32.0));
        assert!(flows.width() <= 500.0);
        assert!(200.0 + flows.height() > corners[8].1 + flows.swatch().1);
    }

    /// Sizes fall before columns are added, and columns are added before the picture's height is passed.
    #[test]
    fn a_longer_list_is_written_smaller_and_then_wider() {
        let laid = |flows: usize| {
            let list = vec![Flow::new(1, 2, 3); flows];
            let looks = looks_on_input_side(&list);
            let flows = Flows::of(&list, (&looks, "output"), (20.0, 200.0), 500.0);
            assert!(flows.height() <= 200.0);
            (flows.size, flows.rows, flows.width() <= 500.0)
        };
        assert_eq!(laid(1), (12.0, 1, true));
        assert_eq!(laid(36), (12.0, 9, true));
        assert_eq!(laid(37), (10.0, 10, true));
        assert_eq!(laid(512), (10.0, 10, false));
    }

    /// Neither a flow and the one beside it nor a flow and the one below it.
    #[test]
    fn flows_do_not_overlap() {
        let list = vec![Flow::new(16, 16, 1_024); 512];
        let looks = looks_on_input_side(&list);
        for width in [500.0, 1_196.0] {
            let flows = Flows::of(&list, (&looks, "output"), (20.0, 428.0), width);
            let (wide, high) = flows.swatch();
            let words = width_of(&words_of(&list[0])) * flows.size;
            let corners: Vec<_> = flows.corners().collect();
            assert!(corners[1].1 >= corners[0].1 + high.max(flows.size));
            assert!(corners[flows.rows].0 >= corners[0].0 + wide + words);
        }
    }

    #[test]
    fn no_flows_take_no_room() {
        let looks = looks_on_input_side(&[]);
        let flows = Flows::of(&[], (&looks, "output"), (20.0, 200.0), 500.0);
        assert_eq!(flows.height(), 0.0);
    }

    #[test]
    fn the_lines_name_the_ports_of_the_colours() {
        let list = [Flow::new(1, 2, 3)];
        let looks = looks_on_input_side(&list);
        for name in ["input", "output"] {
            let flows = Flows::of(&list, (&looks, name), (20.0, 200.0), 500.0);
            let words = format!("flow: its number in the colour of its {name}, input \u{2192} output, cells in the frame");
            assert_eq!(flows.lines(), [words]);
        }
    }

    #[test]
    fn flows_in_words() {
        assert_eq!(words_of(&Flow::new(8, 9, 1)), "8 \u{2192} 9, 1 cell");
        assert_eq!(words_of(&Flow::new(8, 9, 0)), "8 \u{2192} 9, 0 cells");
        let most = words_of(&Flow::new(16, 3, 1_024));
        assert_eq!(most, "16 \u{2192} 3, 1,024 cells");
    }
}
