//! The picture of a flow, an input or an output: how far it is ahead of its share along the frame.

use frame_builder::Who;

use crate::course::{Course, Run};
use crate::svg::{count, decimal, dot, grouped, signed, Page, Path};

const SIZE: (f64, f64) = (1_200.0, 652.0);
const MARGIN: f64 = 20.0;
const LEFT: f64 = 84.0;
const RIGHT: f64 = 1_136.0;
const TOP: f64 = 104.0;
const BOTTOM: f64 = 496.0;
/// The first line of the words below the chart, and the height of a line.
const WORDS: f64 = 578.0;
const LINE_HEIGHT: f64 = 18.0;
/// The most slots whose ends are dotted.
const MOST_DOTTED: i64 = 128;

const LINE: &str = "fill=\"none\" stroke=\"#1f5fbf\" stroke-width=\"1.5\"";
const DASHES: &str =
    "fill=\"none\" stroke=\"#c62828\" stroke-width=\"1.5\" stroke-dasharray=\"8 5\"";
const THIN: &str = "fill=\"none\" stroke=\"#8a6d3b\" stroke-width=\"0.8\"";
const GREY: &str = "fill=\"none\" stroke=\"#777\" stroke-width=\"1.5\"";
const FAINT: &str = "fill=\"none\" stroke=\"#e2e2e2\"";
const AXES: &str = "fill=\"none\" stroke=\"#222\"";
const DOT: &str = "fill=\"#1f5fbf\"";

/// Where slots and cells are on the page.
struct Plot {
    slots: f64,
    /// The most cells, ahead or behind, that are to be seen.
    most: f64,
}

impl Plot {
    fn of(course: &Course) -> Plot {
        let slots = course.slots as f64;
        let heights = course.heights.iter().map(|height| height.abs());
        let farthest = heights.max().unwrap_or(0) as f64 / slots;
        let most = farthest.max(thirds(course) as f64 / 3.0);
        Plot { slots, most }
    }

    fn x(&self, slots: i64) -> f64 {
        LEFT + slots as f64 * (RIGHT - LEFT) / self.slots
    }

    /// The most cells are a little inside the edge, so that there is room for words.
    fn y(&self, cells: f64) -> f64 {
        let middle = (TOP + BOTTOM) / 2.0;
        middle - cells / (1.15 * self.most) * (BOTTOM - TOP) / 2.0
    }

    /// The place of a height, which is cells times slots.
    fn y_of(&self, height: i64) -> f64 {
        self.y(height as f64 / self.slots)
    }

    /// The cells between two ticks: at most five ticks on either side.
    fn step(&self) -> f64 {
        let steps = [
            0.1, 0.2, 0.5, 1.0, 2.0, 5.0, 10.0, 20.0, 50.0, 100.0, 200.0, 500.0,
        ];
        let few = |step: &f64| self.most / step < 6.0;
        steps.into_iter().find(few).unwrap_or(1_000.0)
    }
}

/// Three times the cells that the customer asked any run to keep to; never less than the bound.
fn thirds(course: &Course) -> i64 {
    2 * course.halvings() + 1
}

/// The picture of a flow, an input or an output.
pub fn draw_course(course: &Course) -> String {
    let cells = count(course.load, "cell");
    let slots = count(course.slots as usize, "slot");
    let name = &course.name;
    let halvings = course.halvings();
    let title = format!("{name}: m = {cells} in a frame of 2^k = {slots} (k = {halvings})");
    let plot = Plot::of(course);
    let mut page = Page::new(SIZE, &title);
    page.heading(MARGIN, &title, &subtitle(course));
    draw_legend(&mut page, course);
    draw_slot_axis(&mut page, &plot, course);
    draw_cell_axis(&mut page, &plot);
    draw_level(&mut page, plot.y(0.0), GREY);
    let beside = (RIGHT + 8.0, plot.y(0.0) + 4.0);
    page.text(beside, "fill=\"#555\"", "share");
    draw_demand(&mut page, &plot, ("+", thirds(course)));
    draw_demand(&mut page, &plot, ("\u{2212}", -thirds(course)));
    if course.bound == 0 {
        draw_bound(&mut page, &plot, ("\u{b1}", 0));
    } else {
        draw_bound(&mut page, &plot, ("+", course.bound));
        draw_bound(&mut page, &plot, ("\u{2212}", -course.bound));
    }
    page.path(&course_path(&plot, course), LINE);
    if course.slots <= MOST_DOTTED {
        draw_dots(&mut page, &plot, course);
    }
    for (place, words) in words_below(course).iter().enumerate() {
        let base = WORDS + place as f64 * LINE_HEIGHT;
        page.text((MARGIN, base), "", words);
    }
    page.finish()
}

/// The farthest ahead and behind from the frame's beginning, in words.
fn subtitle(course: &Course) -> String {
    let words = |(slots, height): (i64, i64)| match height {
        0 => "0".to_string(),
        _ => {
            let cells = signed(height as f64 / course.slots as f64);
            format!("{cells} (after slot {slots})")
        }
    };
    let most = words(course.highest());
    let least = words(course.lowest());
    format!("Cells ahead of share, from the frame's beginning: at most {most}, at least {least}")
}

/// What is said below the chart: the farthest over any run, and how deep a buffer to order.
fn words_below(course: &Course) -> Vec<String> {
    let mut words = farthest(course);
    words.extend(match (course.who, course.load) {
        (Who::Flow(_), 0) => {
            vec!["No cells are reserved, so that there is no buffer to order.".to_string()]
        }
        (Who::Flow(_), _) => depth(course),
        _ => vec!["Buffers are ordered for each flow: ./picture flow F says how deep.".to_string()],
    });
    words
}

/// The runs that are farthest ahead and behind.
fn farthest(course: &Course) -> Vec<String> {
    let any = "over any run of this frame as it repeats";
    if course.ahead.lead == 0 {
        return vec![format!(
            "Nowhere ahead or behind {any}: every run has exactly its share."
        )];
    }
    let words = |run: Run| {
        let unit = if run.lead.abs() == course.slots {
            "cell"
        } else {
            "cells"
        };
        let cells = exactly("", run.lead, course.slots);
        let slots = count(run.length, "slot");
        format!("{cells} {unit}, in {slots} from slot {}", run.start)
    };
    vec![
        format!("Farthest ahead {any}: {}.", words(course.ahead)),
        format!("Farthest behind {any}: {}.", words(course.behind)),
    ]
}

/// How deep a buffer to order for a flow, with any frames and with this one alone.
fn depth(course: &Course) -> Vec<String> {
    let order = |held: i64| count((held / course.slots) as usize, "cell");
    let cells = |held: i64| exactly("", held, course.slots);
    let (any, alone) = (course.held_by_any(), course.held_by_frame());
    vec![
        format!(
            "Buffer to order for this flow, from an even source: {}, with any frames of this builder in which it has m cells \
             (1 \u{2212} 1 / 2^k + the bound + m / 2^k = {}, rounded down).",
            order(any),
            cells(any)
        ),
        format!(
            "While this frame alone repeats: {} (1 \u{2212} 1 / 2^k + b + m / 2^k = {}, rounded down, where b is the farthest behind).",
            order(alone),
            cells(alone)
        ),
    ]
}

/// So many parts of a cell, with a sign: exact, and rounded besides where that has more than three digits after the point.
fn exactly(sign: &str, parts: i64, of: i64) -> String {
    let parts = parts.abs();
    let rounded = decimal(parts as f64 / of as f64);
    if parts == 0 {
        return rounded;
    }
    if parts * 1_000 % of == 0 {
        return format!("{sign}{rounded}");
    }
    let (parts, of) = (grouped(parts as usize), grouped(of as usize));
    format!("{sign}{parts}/{of} \u{2248} {sign}{rounded}")
}

fn draw_legend(page: &mut Page, course: &Course) {
    let base = 80.0;
    let so_far = "cells so far \u{2212} t \u{d7} m / 2^k, after t slots";
    let entries = [
        (MARGIN, LINE, so_far),
        (330.0, DASHES, "bound of any run at this load"),
        (590.0, THIN, "bound asked for: \u{b1}(2k + 1)/3 cells"),
        (880.0, GREY, "share: t \u{d7} m / 2^k cells"),
    ];
    for (x, style, words) in entries {
        let mut path = Path::default();
        path.start(x, base - 4.0);
        path.across_by(34.0);
        page.path(&path, style);
        page.text((x + 42.0, base), "", words);
    }
    if course.slots <= MOST_DOTTED {
        page.put(&dot((MARGIN + 17.0, base - 4.0), DOT));
    }
}

fn draw_slot_axis(page: &mut Page, plot: &Plot, course: &Course) {
    let step = (course.slots / 16).max(1);
    let (mut faint, mut ticks) = (Path::default(), Path::default());
    page.put("<g text-anchor=\"middle\">");
    for slots in (0..=course.slots).step_by(step as usize) {
        let x = plot.x(slots);
        faint.start(x, TOP);
        faint.down_to(BOTTOM);
        ticks.start(x, BOTTOM);
        ticks.down_to(BOTTOM + 5.0);
        page.text((x, BOTTOM + 20.0), "", &slots.to_string());
    }
    let below = ((LEFT + RIGHT) / 2.0, BOTTOM + 46.0);
    let words = "slots from the frame's beginning";
    page.text(below, "font-size=\"13\"", words);
    page.put("</g>");
    ticks.start(LEFT, BOTTOM);
    ticks.across_to(RIGHT);
    page.path(&faint, FAINT);
    page.path(&ticks, AXES);
}

fn draw_cell_axis(page: &mut Page, plot: &Plot) {
    let last = (plot.most / plot.step()).floor() as i32;
    let (mut faint, mut ticks) = (Path::default(), Path::default());
    page.put("<g text-anchor=\"end\">");
    for place in -last..=last {
        let cells = f64::from(place) * plot.step();
        let y = plot.y(cells);
        faint.start(LEFT, y);
        faint.across_to(RIGHT);
        ticks.start(LEFT - 5.0, y);
        ticks.across_to(LEFT);
        page.text((LEFT - 10.0, y + 4.0), "", &signed(cells));
    }
    page.put("</g>");
    ticks.start(LEFT, TOP);
    ticks.down_to(BOTTOM);
    page.path(&faint, FAINT);
    page.path(&ticks, AXES);
    let beside = (30.0, (TOP + BOTTOM) / 2.0);
    page.upright(beside, "font-size=\"13\"", "cells ahead of share");
}

/// A line across the whole frame.
fn draw_level(page: &mut Page, y: f64, style: &str) {
    let mut path = Path::default();
    path.start(LEFT, y);
    path.across_to(RIGHT);
    page.path(&path, style);
}

/// The bound on one side, given by its sign and its height, with its value on the near side of it.
fn draw_bound(page: &mut Page, plot: &Plot, (sign, height): (&str, i64)) {
    let value = exactly(sign, height, plot.slots as i64);
    let y = plot.y_of(height);
    draw_level(page, y, DASHES);
    let base = if height < 0 { y - 7.0 } else { y + 17.0 };
    let words = format!("bound of any run at this load: {value}");
    beside_level(page, base, "#b71c1c", &words);
}

/// The bound asked for on one side, given by its sign and its thirds of a cell, with its value on the far side of it.
fn draw_demand(page: &mut Page, plot: &Plot, (sign, thirds): (&str, i64)) {
    let value = exactly(sign, thirds, 3);
    let y = plot.y(thirds as f64 / 3.0);
    draw_level(page, y, THIN);
    let base = if thirds < 0 { y + 17.0 } else { y - 7.0 };
    let words = format!("bound asked for: {sign}(2k + 1)/3 cells = {value}");
    beside_level(page, base, "#6f572f", &words);
}

/// Words at the right end of a line across.
fn beside_level(page: &mut Page, base: f64, colour: &str, words: &str) {
    let attributes = format!("text-anchor=\"end\" fill=\"{colour}\"");
    page.text((RIGHT - 6.0, base), &attributes, words);
}

/// Level from slot to slot, with a jump at the end of each slot that changes the height.
fn course_path(plot: &Plot, course: &Course) -> Path {
    let mut path = Path::default();
    path.start(LEFT, plot.y(0.0));
    for (slots, height) in course.jumps() {
        path.across_to(plot.x(slots));
        path.down_to(plot.y_of(height));
    }
    path.across_to(RIGHT);
    path
}

fn draw_dots(page: &mut Page, plot: &Plot, course: &Course) {
    for (slots, &height) in (0..).zip(&course.heights) {
        page.put(&dot((plot.x(slots), plot.y_of(height)), DOT));
    }
}

#[cfg(test)]
mod tests {
    use super::*;
    use crate::course::tests::{course, course_through, table7};
    use crate::frame::tests::frame_of;

    #[test]
    fn the_line_of_flow_5_of_table_7() {
        let course = table7(Who::Flow(5));
        let plot = Plot::of(&course);
        // Half a cell is 196 / (1.15 × 5/3) / 2 = 51.13 high, a slot 1052 / 4 = 263 wide.
        let path = course_path(&plot, &course);
        let slots = "H347V248.87H610V300H873V351.13H1136V300";
        assert_eq!(path.data(), format!("M84 300{slots}H1136"));
    }

    #[test]
    fn what_keeps_its_share_is_one_line() {
        for who in [Who::Input(4), Who::Input(2), Who::Output(3)] {
            let course = table7(who);
            let path = course_path(&Plot::of(&course), &course);
            assert_eq!(path.data(), "M84 300H1136");
        }
    }

    #[test]
    fn words_of_table_7() {
        let drawn = draw_course(&table7(Who::Flow(5)));
        for words in [
            "<title>Flow 5, input 4 to output 4: m = 2 cells in a frame of 2^k = 4 slots (k = 2)</title>",
            "beginning: at most +0.5 (after slot 1), at least \u{2212}0.5 (after slot 3)<",
            "bound of any run at this load: +1<",
            "bound of any run at this load: \u{2212}1<",
            "bound asked for: +(2k + 1)/3 cells = +5/3 \u{2248} +1.667<",
            "bound asked for: \u{2212}(2k + 1)/3 cells = \u{2212}5/3 \u{2248} \u{2212}1.667<",
        ] {
            assert!(drawn.contains(words), "{words}");
        }
        let full = draw_course(&table7(Who::Input(4)));
        assert!(full.contains("from the frame's beginning: at most 0, at least 0<"));
    }

    /// Each line is drawn below the chart, and on the page.
    fn hold_below(course: &Course, lines: &[&str]) {
        let drawn = draw_course(course);
        for (place, words) in lines.iter().enumerate() {
            let base = WORDS + place as f64 * LINE_HEIGHT;
            assert!(base > BOTTOM + 46.0 && base < SIZE.1);
            let line = format!("<text x=\"20\" y=\"{base}\">{words}</text>");
            assert!(drawn.contains(&line), "{line}: {drawn}");
        }
        assert_eq!(words_below(course), lines);
    }

    /// The runs, the source and the two buffers of docs/BUFFERS.md.
    #[test]
    fn the_farthest_and_the_depth_of_the_studio() {
        let frame = frame_of(include_str!("../../../examples/studio.sheet"));
        let lines = [
            "Farthest ahead over any run of this frame as it repeats: 1.25 cells, in 2 slots from slot 2.",
            "Farthest behind over any run of this frame as it repeats: 1.25 cells, in 6 slots from slot 4.",
            "Buffer to order for this flow, from an even source: 3 cells, with any frames of this builder in which it has m cells \
             (1 \u{2212} 1 / 2^k + the bound + m / 2^k = 3.5, rounded down).",
            "While this frame alone repeats: 2 cells (1 \u{2212} 1 / 2^k + b + m / 2^k = 2.5, rounded down, where b is the farthest \
             behind).",
        ];
        hold_below(&course(&frame, Who::Flow(1)), &lines);
    }

    #[test]
    fn the_farthest_is_exact() {
        let frame = frame_of(include_str!("../../../examples/full.sheet"));
        let words = words_below(&course(&frame, Who::Flow(225)));
        assert!(words[0].ends_with(": 137/64 \u{2248} 2.141 cells, in 11 slots from slot 8."));
        assert!(words[1].ends_with(": 137/64 \u{2248} 2.141 cells, in 53 slots from slot 19."));
        assert!(words[2].contains(": 4 cells, with any frames"));
        assert!(words[3]
            .contains(": 3 cells (1 \u{2212} 1 / 2^k + b + m / 2^k = 205/64 \u{2248} 3.203,"));
        let one = words_below(&table7(Who::Flow(5)));
        assert!(one[0].ends_with(": 1 cell, in 2 slots from slot 4."));
    }

    /// A port has several buffers, and a flow without cells needs none.
    #[test]
    fn a_depth_is_of_a_flow_that_has_cells() {
        let share = "Nowhere ahead or behind over any run of this frame as it repeats: every run has exactly its share.";
        let by_flow = "Buffers are ordered for each flow: ./picture flow F says how deep.";
        hold_below(&table7(Who::Input(4)), &[share, by_flow]);
        let output = words_below(&table7(Who::Output(1)));
        assert!(output[1].ends_with(": 0.75 cells, in 1 slot from slot 4."));
        assert_eq!(output[2..], [by_flow]);
        let none = "No cells are reserved, so that there is no buffer to order.";
        hold_below(&course_through(&[0, 0]), &[share, none]);
    }

    #[test]
    fn a_whole_bound_is_a_whole_number() {
        let drawn = draw_course(&course_through(&[1, 0]));
        assert!(drawn.contains("bound of any run at this load: +1<"));
        assert!(drawn.contains("bound asked for: +(2k + 1)/3 cells = +1<"));
    }

    #[test]
    fn a_bound_with_many_digits_is_a_fraction_too() {
        let frame = frame_of(include_str!("../../../examples/full.sheet"));
        let drawn = draw_course(&course(&frame, Who::Flow(225)));
        assert!(drawn.contains("bound of any run at this load: +214/64 \u{2248} +3.344<"));
    }

    #[test]
    fn a_frame_of_one_slot_has_no_room() {
        let drawn = draw_course(&course_through(&[1]));
        assert!(drawn.contains("bound of any run at this load: 0<"));
    }

    #[test]
    fn a_bunched_flow_stays_on_the_page() {
        let course = course_through(&[[1; 512], [0; 512]].concat());
        let plot = Plot::of(&course);
        assert_eq!(course.highest(), (512, 256 * 1_024));
        assert!(plot.y_of(256 * 1_024) > TOP);
        assert_eq!(plot.step(), 50.0);
    }
}
