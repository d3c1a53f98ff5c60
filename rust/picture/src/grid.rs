//! The picture of a frame: slots across, the ports of its side down, a colour for each port of the other side.

use frame_builder::Side;

use crate::frame::{port_of, Frame};
use crate::legend::{draw_ports, width_of_ports, Flows};
use crate::look::{looks_of, Look};
use crate::svg::{count, Page};
use crate::tiles::{Tile, Tiles};

const MARGIN: f64 = 20.0;
const LEFT: f64 = 64.0;
const TOP: f64 = 104.0;
/// The width of the cells of a long frame.
const WIDEST: f64 = 1_152.0;
/// The height of the cells, where numbers in them would make it higher.
const TALLEST: f64 = 1_400.0;
const LARGEST_CELL: f64 = 44.0;
const LOWEST_CELL: f64 = 10.0;
/// The smallest cell that has room for a number.
const SMALLEST_WRITTEN: f64 = 14.0;
/// The height of a band's slot numbers, and the white below a band.
const AXIS: f64 = 18.0;
const BELOW: f64 = 18.0;
/// The white between cells.
const GAP: f64 = 1.0;
/// The width of a digit that is one high.
const DIGIT: f64 = 0.56;

/// Where the cells are. Slots are laid in bands, one below the other. Slots and ports count from 0 here.
struct Layout {
    ports: usize,
    slots: usize,
    /// The slots of a band.
    band: usize,
    /// The width and the height of a cell.
    wide: f64,
    high: f64,
}

impl Layout {
    /// Bands of 64 slots, with numbers in the cells, or of 128 where the page would grow too tall.
    fn of(frame: &Frame) -> Layout {
        let short = Layout::in_bands(frame, 64);
        if short.height() <= TALLEST {
            return short;
        }
        Layout::in_bands(frame, 128)
    }

    fn in_bands(frame: &Frame, most: usize) -> Layout {
        let (ports, slots) = (frame.ports(), frame.slots());
        let band = slots.min(most);
        let wide = (WIDEST / band as f64).min(LARGEST_CELL).floor();
        let high = wide.max(LOWEST_CELL);
        Layout {
            ports,
            slots,
            band,
            wide,
            high,
        }
    }

    fn width(&self) -> f64 {
        let legend = width_of_ports(self.ports);
        let cells = LEFT + self.band as f64 * self.wide + MARGIN;
        cells.max(legend).max(540.0)
    }

    fn band_height(&self) -> f64 {
        AXIS + self.ports as f64 * self.high + BELOW
    }

    fn height(&self) -> f64 {
        TOP + (self.slots / self.band) as f64 * self.band_height()
    }

    /// The upper left corner of a cell.
    fn corner(&self, slot: usize, port: usize) -> (f64, f64) {
        let x = LEFT + (slot % self.band) as f64 * self.wide;
        let top = TOP + (slot / self.band) as f64 * self.band_height() + AXIS;
        (x, top + port as f64 * self.high)
    }

    /// The middle of a cell.
    fn middle(&self, slot: usize, port: usize) -> (f64, f64) {
        let (x, y) = self.corner(slot, port);
        (x + (self.wide - GAP) / 2.0, y + (self.high - GAP) / 2.0)
    }

    /// The size at which the number of each of so many flows has room in a cell; none where the cells are too small.
    fn digits(&self, flows: usize) -> Option<f64> {
        if self.wide < SMALLEST_WRITTEN {
            return None;
        }
        let digits = flows.to_string().len() as f64;
        let room = (self.wide - GAP - 1.0) / (digits * DIGIT);
        Some((self.wide * 0.58).min(room).min(16.0).floor())
    }

    /// The first slot of each band.
    fn firsts(&self) -> impl Iterator<Item = usize> {
        (0..self.slots).step_by(self.band)
    }

    /// The least power of two at whose multiples slot numbers are well apart, also from a band's first one.
    fn step(&self) -> usize {
        if self.wide >= 24.0 {
            return 1;
        }
        let apart = |step: &usize| (step - 1) as f64 * self.wide >= 40.0;
        [2, 4, 8, 16, 32].into_iter().find(apart).unwrap_or(64)
    }

    /// Whether a slot has its number above it.
    fn numbered(&self, slot: usize) -> bool {
        slot.is_multiple_of(self.band) || (slot + 1).is_multiple_of(self.step())
    }
}

/// The picture of a frame.
pub fn draw_frame(frame: &Frame) -> String {
    let layout = Layout::of(frame);
    let below = layout.height();
    let looks = looks_of(frame.list(), frame.side());
    let coloured = port_of(frame.side().other());
    let flows = Flows::of(
        frame.list(),
        (&looks, coloured),
        (MARGIN, below),
        layout.width() - 2.0 * MARGIN,
    );
    let title = title(frame);
    let width = layout.width().max(flows.width() + 2.0 * MARGIN);
    let mut page = Page::new((width, below + flows.height()), &title);
    let cells = cells_of(frame, &layout, &looks);
    page.heading(MARGIN, &title, &subtitle(frame, &cells));
    draw_ports(&mut page, (MARGIN, 64.0), coloured, layout.ports);
    cells.draw(&mut page);
    write_slots(&mut page, &layout);
    write_ports(&mut page, &layout);
    name_axes(&mut page, &layout, port_of(frame.side()));
    flows.draw(&mut page);
    page.finish()
}

fn title(frame: &Frame) -> String {
    let (ports, slots) = (count(frame.ports(), "port"), count(frame.slots(), "slot"));
    let side = match frame.side() {
        Side::Input => "",
        Side::Output => ", by output",
    };
    format!("Frame of {ports} and {slots}{side}")
}

fn subtitle(frame: &Frame, cells: &Tiles) -> String {
    let entries = frame.entries().iter();
    let idle = entries.filter(|&&entry| entry == 0).count();
    let sent = count(frame.entries().len() - idle, "cell");
    let idle = count(idle, "place");
    let small = match cells.digits {
        Some(_) => "",
        None => ". They are too small for numbers: a browser shows the flow at the pointer",
    };
    let does = match frame.side() {
        Side::Input => "input sends",
        Side::Output => "output takes",
    };
    format!("The flow that each {does} a cell of in each slot: {sent}, {idle} idle{small}")
}

/// The cells of a frame, and its idle places.
fn cells_of(frame: &Frame, layout: &Layout, looks: &[Look]) -> Tiles {
    let rows = frame.rows().enumerate();
    let tiles = rows.flat_map(|(slot, row)| {
        let entries = row.iter().enumerate();
        entries.map(move |(port, &entry)| Tile {
            flow: entry.into(),
            look: looks[usize::from(entry)],
            corner: layout.corner(slot, port),
            title: Some(title_of(frame, entry, slot, port)),
        })
    });
    Tiles {
        size: (layout.wide - GAP, layout.high - GAP),
        digits: layout.digits(frame.list().len()),
        tiles: tiles.collect(),
    }
}

/// What a browser shows of a cell.
fn title_of(frame: &Frame, entry: u16, slot: usize, port: usize) -> String {
    let (port, slot) = (port + 1, slot + 1);
    let Some(flow) = frame.flow_of(entry) else {
        return format!("idle, {} {port}, slot {slot}", port_of(frame.side()));
    };
    // The port at whose place the cell stands, and the flow's port of the other side.
    let (input, output) = match frame.side() {
        Side::Input => (port, flow.output.into()),
        Side::Output => (flow.input.into(), port),
    };
    format!("flow {entry}, input {input}, output {output}, slot {slot}")
}

/// The slots' numbers above each band.
fn write_slots(page: &mut Page, layout: &Layout) {
    page.put("<g font-size=\"11\" text-anchor=\"middle\">");
    for slot in (0..layout.slots).filter(|&slot| layout.numbered(slot)) {
        let place = (layout.middle(slot, 0).0, layout.corner(slot, 0).1 - 5.0);
        page.text(place, "", &(slot + 1).to_string());
    }
    page.put("</g>");
}

/// The ports' numbers at the left of each band.
fn write_ports(page: &mut Page, layout: &Layout) {
    let size = layout.high.min(12.0) - 1.0;
    page.put(&format!("<g font-size=\"{size}\" text-anchor=\"end\">"));
    let ports = |slot| (0..layout.ports).map(move |port| (slot, port));
    for (slot, port) in layout.firsts().flat_map(ports) {
        let y = layout.middle(slot, port).1 + size * 0.36;
        page.text((LEFT - 8.0, y), "", &(port + 1).to_string());
    }
    page.put("</g>");
}

/// The words beside the numbers of each band.
fn name_axes(page: &mut Page, layout: &Layout, port: &str) {
    let column = 18.0;
    page.put("<g fill=\"#666\">");
    for slot in layout.firsts() {
        let top = layout.corner(slot, 0).1;
        page.text((LEFT - 14.0, top - 5.0), "text-anchor=\"end\"", "slot");
        let middle = top + layout.ports as f64 * layout.high / 2.0;
        page.upright((column, middle), "", port);
    }
    page.put("</g>");
}

#[cfg(test)]
mod tests {
    use frame_builder::Flow;

    use super::*;
    use crate::frame::tests::{frame_of, sheet, table7};
    use crate::request::HELP;

    fn idle(ports: usize, slots: usize) -> Frame {
        Frame::build(sheet(ports, slots, &[])).unwrap()
    }

    fn numbered(layout: &Layout) -> Vec<usize> {
        let slots = (0..layout.slots).filter(|&slot| layout.numbered(slot));
        slots.map(|slot| slot + 1).collect()
    }

    #[test]
    fn bands_are_64_slots_or_128() {
        let bands = |ports, slots| Layout::of(&idle(ports, slots)).band;
        assert_eq!([bands(1, 1), bands(4, 4), bands(16, 64)], [1, 4, 64]);
        assert_eq!([bands(16, 256), bands(2, 1_024)], [64, 64]);
        assert_eq!([bands(16, 512), bands(16, 1_024)], [128, 128]);
    }

    #[test]
    fn every_cell_is_on_the_page() {
        for (ports, slots) in [(1, 1), (4, 4), (16, 64), (1, 1_024), (16, 1_024)] {
            let layout = Layout::of(&idle(ports, slots));
            let (x, y) = layout.corner(slots - 1, ports - 1);
            assert!(x + layout.wide <= layout.width());
            assert!(y + layout.high <= layout.height());
            assert!(layout.width() <= 1_240.0);
        }
    }

    #[test]
    fn slot_numbers() {
        assert_eq!(numbered(&Layout::of(&idle(4, 4))), [1, 2, 3, 4]);
        let long = numbered(&Layout::of(&idle(16, 1_024)));
        assert_eq!(long[..4], [1, 8, 16, 24]);
        assert_eq!(long[16..20], [128, 129, 136, 144]);
    }

    #[test]
    fn table_7_has_a_dash_for_each_cell() {
        let drawn = draw_frame(&table7());
        let red = "<g stroke=\"#d7263d\">\n\
                   <path d=\"M64 143.5h43\"><title>flow 1, input 1, output 1, slot 1</title></path>\n\
                   <path d=\"M108 275.5h43\"><title>flow 3, input 4, output 1, slot 2</title></path>\n\
                   <path d=\"M152 143.5h43\"><title>flow 1, input 1, output 1, slot 3</title></path>\n</g>";
        assert!(drawn.contains(red), "{drawn}");
        assert!(drawn.contains("<title>Frame of 4 ports and 4 slots</title>"));
        assert!(drawn.contains("8 cells, 8 places idle<"));
        // Flow 5, to output 4: two numbers in the cells and one in the legend, with its words.
        assert_eq!(drawn.matches(">5</text>").count(), 3);
        assert!(drawn.contains(">4 \u{2192} 4, 2 cells</text>"));
        assert!(drawn.contains(">4 \u{2192} 2, 1 cell</text>"));
    }

    /// The cells of inputs 1 and 4 are in the colours of those inputs, and each output has a row.
    #[test]
    fn table_7_by_output_has_a_dash_for_each_cell() {
        let drawn = draw_frame(&table7().turned().unwrap());
        let of_input_1 = "<g stroke=\"#d7263d\">\n\
                   <path d=\"M64 143.5h43\"><title>flow 1, input 1, output 1, slot 1</title></path>\n\
                   <path d=\"M108 187.5h43\"><title>flow 2, input 1, output 2, slot 2</title></path>\n\
                   <path d=\"M152 143.5h43\"><title>flow 1, input 1, output 1, slot 3</title></path>\n\
                   <path d=\"M196 187.5h43\"><title>flow 2, input 1, output 2, slot 4</title></path>\n</g>";
        assert!(drawn.contains(of_input_1), "{drawn}");
        assert!(drawn.contains("<title>Frame of 4 ports and 4 slots, by output</title>"));
        assert!(drawn.contains(
            "The flow that each output takes a cell of in each slot: 8 cells, 8 places idle<"
        ));
        assert!(drawn.contains("flow: its number in the colour of its input, "));
        // The name of the rows, and that of the colours.
        assert_eq!(drawn.matches(">output</text>").count(), 1);
        assert_eq!(drawn.matches(">input</text>").count(), 1);
        assert_eq!(drawn.matches("<title>idle, output ").count(), 8);
        assert_eq!(drawn.matches("<title>idle, input ").count(), 0);
    }

    /// The titles of a frame, but for the page's own.
    fn titles(frame: &Frame) -> Vec<String> {
        let drawn = draw_frame(frame);
        let pieces = drawn.split("<title>").skip(2);
        let titles = pieces.map(|piece| piece.split_once("</title>").unwrap().0.to_string());
        titles.collect()
    }

    #[test]
    fn each_cell_has_a_title() {
        for text in [
            include_str!("../../../examples/table7.sheet"),
            include_str!("../../../examples/sound-and-picture.sheet"),
            include_str!("../../../examples/largest.sheet"),
        ] {
            let frame = frame_of(text);
            let mut wanted = Vec::new();
            for (slot, row) in (1..).zip(frame.rows()) {
                for (input, &flow) in (1..).zip(row) {
                    wanted.push(match flow.checked_sub(1) {
                        None => format!("idle, input {input}, slot {slot}"),
                        Some(place) => {
                            let output = frame.list()[usize::from(place)].output;
                            format!("flow {flow}, input {input}, output {output}, slot {slot}")
                        }
                    });
                }
            }
            let mut titles = titles(&frame);
            titles.sort();
            wanted.sort();
            assert!(titles == wanted);
        }
    }

    /// A frame and the same frame turned have a cell of the same flow, input, output and slot for each title.
    #[test]
    fn a_turned_frame_has_the_same_cells() {
        for text in [
            include_str!("../../../examples/table7.sheet"),
            include_str!("../../../examples/sound-and-picture.sheet"),
            include_str!("../../../examples/largest.sheet"),
        ] {
            let sent = |frame: &Frame| {
                let mut titles = titles(frame);
                titles.retain(|title| title.starts_with("flow "));
                titles.sort();
                titles
            };
            let frame = frame_of(text);
            let cells = sent(&frame);
            assert!(!cells.is_empty());
            assert!(sent(&frame.turned().unwrap()) == cells);
        }
    }

    /// Each cell stands in the row of its output and in the column of its slot.
    #[test]
    fn each_cell_by_output_stands_at_its_output() {
        let frame = frame_of(include_str!("../../../examples/studio.sheet"));
        let turned = frame.turned().unwrap();
        let layout = Layout::of(&turned);
        let looks = looks_of(turned.list(), turned.side());
        let cells = cells_of(&turned, &layout, &looks);
        let taken = || cells.tiles.iter().filter(|tile| tile.flow > 0);
        assert_eq!(taken().count(), 18);
        for tile in taken() {
            let flow = turned.list()[tile.flow - 1];
            let (input, output) = (usize::from(flow.input), usize::from(flow.output));
            let title = tile.title.as_deref().unwrap();
            let slot = title.rsplit_once(' ').unwrap().1.parse::<usize>().unwrap();
            assert_eq!(tile.corner, layout.corner(slot - 1, output - 1), "{title}");
            assert_eq!(tile.look.port, input, "{title}");
        }
    }

    /// Flow 2 has the same ports as flow 1, and flow 4 as flow 3.
    #[test]
    fn sound_looks_other_than_picture() {
        let frame = frame_of(include_str!("../../../examples/sound-and-picture.sheet"));
        let looks = looks_of(frame.list(), Side::Input);
        let cells = cells_of(&frame, &Layout::of(&frame), &looks);
        for tile in &cells.tiles {
            assert_eq!(tile.look.field().is_some(), [2, 4].contains(&tile.flow));
        }
        let fields = draw_frame(&frame).matches("stroke=\"#d1dcf5\"").count();
        assert_eq!(
            fields, 2,
            "a cell of flow 2 in the frame, and its colour in the legend"
        );
    }

    /// The help names the frames whose cells have no numbers.
    #[test]
    fn cells_are_numbered_as_the_help_says() {
        let help: Vec<&str> = HELP.split_whitespace().collect();
        let small = "with 512 slots and more than 7 ports, or with 1,024 slots and more than 2 ports, the cells are too small for numbers";
        assert!(help.join(" ").contains(small));
        for (ports, k) in (1..=16).flat_map(|ports| (0..=10).map(move |k| (ports, k))) {
            let small = (k == 9 && ports > 7) || (k == 10 && ports > 2);
            let layout = Layout::of(&idle(ports, 1 << k));
            assert_eq!(layout.digits(512).is_none(), small, "{ports} {k}");
        }
    }

    #[test]
    fn a_picture_without_numbers_says_so() {
        let words = "They are too small for numbers: a browser shows the flow at the pointer<";
        for (ports, slots, small) in [(2, 1_024, false), (3, 1_024, true), (16, 256, false)] {
            let mut list = [Flow::new(1, 1, 0); 17];
            list[16].cells = 1;
            let drawn = draw_frame(&Frame::build(sheet(ports, slots, &list)).unwrap());
            assert_eq!(drawn.contains(words), small);
            // No port and no numbered slot is 17: the flow has its number in the legend, and in its cell where that has room.
            let numbers = drawn.matches("\">17</text>").count();
            assert_eq!(numbers, if small { 1 } else { 2 });
        }
    }

    /// As many flows as a list can have, of no cells, beside any frame.
    #[test]
    fn the_legend_is_not_higher_than_the_picture() {
        for (ports, slots) in [(1, 1), (4, 4), (16, 16), (16, 64), (2, 1_024), (16, 1_024)] {
            for flows in [1, 5, 60, 256, 512] {
                let list = vec![Flow::new(1, 1, 0); flows];
                let looks = looks_of(&list, Side::Input);
                let layout = Layout::of(&idle(ports, slots));
                let (top, width) = (layout.height(), layout.width() - 2.0 * MARGIN);
                let legend = Flows::of(&list, (&looks, "output"), (MARGIN, top), width);
                assert!(legend.height() <= top, "{ports} {slots} {flows}");
                let drawn = draw_frame(&Frame::build(sheet(ports, slots, &list)).unwrap());
                let wide = layout.width().max(legend.width() + 2.0 * MARGIN);
                let size = format!("width=\"{wide}\" height=\"{}\" ", top + legend.height());
                assert!(drawn.contains(&size), "{size}");
            }
        }
    }

    #[test]
    fn numbers_of_three_digits_have_room() {
        for slots in [1, 4, 16, 32, 64, 256] {
            let layout = Layout::of(&idle(16, slots));
            for flows in [9, 99, 512] {
                let digits = flows.to_string().len() as f64;
                let size = layout.digits(flows).unwrap();
                assert!(size >= 6.0 && size * DIGIT * digits < layout.wide);
            }
        }
    }
}
