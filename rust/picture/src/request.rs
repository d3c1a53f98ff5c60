//! The words of the command line.

use frame_builder::{Side, Who};

use crate::sheet::number;

/// What `--help` prints.
pub const HELP: &str = "\
picture: draws the frame of a reservation sheet, as an SVG file on standard output

  ./picture frame [SHEET]                slots across, inputs down, a colour for each output, a number for each flow where it has room
  ./picture frame --by-output [SHEET]    the same frame turned: slots across, outputs down, a colour for each input
  ./picture flow F [SHEET]               flow F ahead of its share, or behind, along the frame, and how deep a buffer to order for it
  ./picture input I [SHEET]              all cells of input I ahead of their share, or behind
  ./picture output O [SHEET]             the same of all cells of output O
  ./picture --help                       prints this

SHEET is a file; for - and without a name the sheet is read from standard input. ./frame --help says what a sheet looks like. Its
first pair line is flow 1, the next one flow 2, and so on. The frame is the one that ./frame prints.

The frame: each cell has the number of its flow. But with 512 slots and more than 7 ports, or with 1,024 slots and more than 2
ports, the cells are too small for numbers. At any size, open the file in a browser and point at a cell: the browser shows its
flow, input, output and slot.

The colour of a cell is that of its output, whatever its input. Flows with the same input and the same output are told apart by a
lighter or darker field on that colour: the first such flow has none, and each of the next six has another one. The eighth looks
like the first again. Idle places are grey.

With --by-output a row has the cells that an output takes, slot by slot: the frame as the call Turn writes it. All cells of a row
then have the same output, so that the colour of a cell is that of its input, whatever its output.

The legend has a line for each flow: input, output, and cells in the frame. It is folded into columns, so that it is not higher
than the picture above it. Where the columns need more room than the picture is wide, the page is wider.

A flow, an input or an output: the line shows its cells ahead of its share. After t slots that is the cells so far less
t x m / 2^k, where m is the cells in the whole frame of 2^k slots. It is the lead that Service count answers for the first t
slots, divided by 2^k. The line is level from a slot's end to the next one's.

The dashed line on either side is the bound of what has m cells a frame, as the call Depth answers it. In frames that ./frame prints,
all with m cells of it, it gets no farther ahead of its share or behind it, in any run of slots, and in some such frames it gets just
as far. A run that begins with a frame uses at most half of it. The thin line outside is the bound that the customer asked for,
(2k + 1)/3 cells, whatever m is.

The text below the chart says how far ahead and how far behind it gets over any run of this frame as it repeats, and names the
first such run. Both leads are answers of Service count. For a flow, the text also says how deep a buffer to order. In no run does
an even source send more than its share, rounded up, so that it is at most 1 - 1 / 2^k cells ahead. With that, the bound and m / 2^k,
the buffer holds no more than the text says, whatever frames of 2^k slots follow each other, if each is from ./frame and has m cells
of the flow. While this frame alone repeats, b stands for the bound, which is the farthest behind. Both numbers are rounded down to
whole cells. Buffers are ordered for each flow, so the pictures of inputs and outputs have no depth. docs/BUFFERS.md covers other
sources and says what these numbers rest on.

Examples:

  ./picture frame examples/table7.sheet > docs/table7-frame.svg
  ./picture frame --by-output examples/table7.sheet > table7-by-output.svg
  ./picture flow 5 examples/table7.sheet > docs/table7-flow.svg

It is built by cargo when it is first run, with the library that has the calls: an installed one, which FRAME_BUILDER_PREFIX or
pkg-config names, or the one that the Rattle kit proves in this checkout.

A sheet that is refused, a flow or a port that it does not have, or an unknown word is an error: exit code 2, nothing on standard
output, and a line on standard error. Of a refused sheet standard error has every sentence that ./frame says.
";

/// The end of each sentence about a wrong use.
pub const ADVICE: &str = "./picture --help says more";

/// A picture that can be drawn.
#[derive(Debug, Clone, Copy, PartialEq, Eq)]
pub enum Picture {
    /// The frame by this side.
    Frame(Side),
    Course(Who),
}

/// A picture that is asked for, and the file of the sheet, none for standard input.
#[derive(Debug, Clone, PartialEq, Eq)]
pub struct Request {
    pub picture: Picture,
    pub file: Option<String>,
}

impl Request {
    /// What the words after the command's name ask for.
    pub fn read(words: &[String]) -> Result<Request, String> {
        let words: Vec<&str> = words.iter().map(String::as_str).collect();
        let (picture, file) = match words[..] {
            ["frame", "--by-output", ref rest @ ..] => (Picture::Frame(Side::Output), rest),
            ["frame", ref rest @ ..] => (Picture::Frame(Side::Input), rest),
            ["flow", flow, ref rest @ ..] => (course(Who::Flow, "flow", flow)?, rest),
            ["input", port, ref rest @ ..] => (course(Who::Input, "port", port)?, rest),
            ["output", port, ref rest @ ..] => (course(Who::Output, "port", port)?, rest),
            _ => return Err(format!("{}; {ADVICE}", what_is_missing(&words))),
        };
        let file = match *file {
            [] | ["-"] => None,
            [file] => Some(file.to_string()),
            _ => return Err(format!("one sheet at a time; {ADVICE}")),
        };
        Ok(Request { picture, file })
    }
}

/// Why words that name no picture do not.
fn what_is_missing(words: &[&str]) -> String {
    match words {
        [] => "which picture? frame, flow, input or output".to_string(),
        ["flow"] => "a flow is missing: ./picture flow F [SHEET]".to_string(),
        ["input"] => "an input is missing: ./picture input I [SHEET]".to_string(),
        ["output"] => "an output is missing: ./picture output O [SHEET]".to_string(),
        [word, ..] => format!("{word:?} is no picture; frame, flow, input and output are"),
    }
}

fn course(who: impl Fn(usize) -> Who, name: &str, word: &str) -> Result<Picture, String> {
    let why = || format!("{word:?} is no {name}; {name}s are 1, 2, 3, ..; {ADVICE}");
    let number = number(word).ok_or_else(why)?;
    Ok(Picture::Course(who(number)))
}

#[cfg(test)]
mod tests {
    use super::*;

    fn read(line: &str) -> Result<Request, String> {
        let words: Vec<String> = line.split_whitespace().map(String::from).collect();
        Request::read(&words)
    }

    #[test]
    fn the_five_pictures() {
        for (line, picture) in [
            ("frame", Picture::Frame(Side::Input)),
            ("frame --by-output", Picture::Frame(Side::Output)),
            ("flow 5", Picture::Course(Who::Flow(5))),
            ("input 16", Picture::Course(Who::Input(16))),
            ("output 2", Picture::Course(Who::Output(2))),
        ] {
            for (file, named) in [("", None), (" -", None), (" a.sheet", Some("a.sheet"))] {
                let file_of = named.map(String::from);
                let request = read(&format!("{line}{file}")).unwrap();
                assert_eq!((request.picture, request.file), (picture, file_of));
            }
        }
    }

    #[test]
    fn other_words_are_named() {
        for (line, part) in [
            ("", "which picture?"),
            ("frames", "\"frames\" is no picture; "),
            ("a.sheet", "\"a.sheet\" is no picture; "),
            ("--help frame", "\"--help\" is no picture; "),
            ("frame a.sheet b.sheet", "one sheet at a time;"),
            ("frame --by-output a.sheet b.sheet", "one sheet at a time;"),
            ("frame a.sheet --by-output", "one sheet at a time;"),
            ("--by-output a.sheet", "\"--by-output\" is no picture; "),
            ("flow", "a flow is missing: ./picture flow F [SHEET];"),
            ("flow 1 2 a.sheet", "one sheet at a time;"),
            ("flow a.sheet", "\"a.sheet\" is no flow; flows are 1, 2,"),
            ("input", "an input is missing: ./picture input I [SHEET];"),
            (
                "output",
                "an output is missing: ./picture output O [SHEET];",
            ),
            ("flow x", "\"x\" is no flow"),
            ("input -1", "\"-1\" is no port"),
            ("output 01", "\"01\" is no port; ports are 1, 2, 3, ..;"),
            ("input 99999999999999999999", "is no port"),
        ] {
            let what = read(line).expect_err(line);
            assert!(what.contains(part), "{line}: {what}");
            assert!(what.ends_with("; ./picture --help says more"), "{what}");
        }
    }
}
