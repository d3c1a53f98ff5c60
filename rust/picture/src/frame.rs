//! The frame of a sheet.

use frame_builder::{admit, build, slots_each, turn, Flow, Refusal, Side};

use crate::sheet::Sheet;

/// The entries of a frame: slot by slot, for each input the number of the flow that it sends a cell of, or on the output side for each
/// output the number of the flow that it takes a cell of, 0 for idle; and the sheet that says what these flows are.
#[derive(Debug, PartialEq, Eq)]
pub struct Frame {
    sheet: Sheet,
    side: Side,
    entries: Vec<u16>,
}

/// What a port of a side is called.
pub fn port_of(side: Side) -> &'static str {
    match side {
        Side::Input => "input",
        Side::Output => "output",
    }
}

impl Frame {
    /// The frame that Build makes of a sheet, which is on the input side.
    pub fn build(sheet: Sheet) -> Result<Frame, Refusal> {
        let Sheet { ports, slots, list } = &sheet;
        let limits = slots_each(*slots);
        // Numbers of any size may stand in a sheet; those of one that is admitted have a frame of moderate size.
        admit(*ports, *slots, list, limits)?;
        let mut entries = vec![0; ports * slots];
        build(*ports, *slots, list, limits, &mut entries)?;
        let side = Side::Input;
        Ok(Frame {
            sheet,
            side,
            entries,
        })
    }

    /// The frame by the other side, as Turn writes it.
    pub fn turned(self) -> Result<Frame, Refusal> {
        let Sheet { ports, slots, list } = &self.sheet;
        let mut entries = vec![0; self.entries.len()];
        turn(self.side, *ports, *slots, list, &self.entries, &mut entries)?;
        Ok(Frame {
            side: self.side.other(),
            entries,
            ..self
        })
    }

    /// A frame from anywhere on the input side, for a sheet that Build takes, with as many entries as its own, each of them 0 or one of its
    /// flows.
    pub fn of_entries(sheet: Sheet, entries: Vec<u16>) -> Option<Frame> {
        let limits = slots_each(sheet.slots);
        admit(sheet.ports, sheet.slots, &sheet.list, limits).ok()?;
        let flows = sheet.list.len();
        let whole = entries.len() == sheet.ports * sheet.slots;
        let known = entries.iter().all(|&entry| usize::from(entry) <= flows);
        let side = Side::Input;
        (whole && known).then_some(Frame {
            sheet,
            side,
            entries,
        })
    }

    pub fn side(&self) -> Side {
        self.side
    }

    pub fn ports(&self) -> usize {
        self.sheet.ports
    }

    pub fn slots(&self) -> usize {
        self.sheet.slots
    }

    pub fn list(&self) -> &[Flow] {
        &self.sheet.list
    }

    pub fn entries(&self) -> &[u16] {
        &self.entries
    }

    /// The entries of each slot in turn.
    pub fn rows(&self) -> impl Iterator<Item = &[u16]> {
        self.entries.chunks(self.ports())
    }

    /// The flow that an entry is the number of, none for idle.
    pub fn flow_of(&self, entry: u16) -> Option<Flow> {
        let place = usize::from(entry).checked_sub(1);
        place.map(|place| self.list()[place])
    }
}

#[cfg(test)]
pub mod tests {
    use super::*;

    /// A sheet of some ports and slots with this list.
    pub fn sheet(ports: usize, slots: usize, list: &[Flow]) -> Sheet {
        let list = list.to_vec();
        Sheet { ports, slots, list }
    }

    pub fn frame_of(text: &str) -> Frame {
        Frame::build(Sheet::read(text.as_bytes()).unwrap()).unwrap()
    }

    pub fn table7() -> Frame {
        frame_of(include_str!("../../../examples/table7.sheet"))
    }

    #[test]
    fn table_7() {
        let frame = table7();
        assert_eq!((frame.ports(), frame.slots()), (4, 4));
        let rows: Vec<&[u16]> = frame.rows().collect();
        assert_eq!(
            rows,
            [[1, 0, 0, 5], [2, 0, 0, 3], [1, 0, 0, 4], [2, 0, 0, 5]]
        );
        let outputs = rows[1].iter().map(|&entry| frame.flow_of(entry));
        let outputs = outputs.map(|flow| flow.map_or(0, |flow| flow.output));
        assert_eq!(outputs.collect::<Vec<_>>(), [2, 0, 0, 1]);
        assert_eq!(frame.side(), Side::Input);
    }

    #[test]
    fn table_7_turned() {
        let turned = table7().turned().unwrap();
        assert_eq!((turned.ports(), turned.slots()), (4, 4));
        assert_eq!(turned.side(), Side::Output);
        let rows: Vec<&[u16]> = turned.rows().collect();
        assert_eq!(
            rows,
            [[1, 0, 0, 5], [3, 2, 0, 0], [1, 4, 0, 0], [0, 2, 0, 5]]
        );
        assert_eq!(turned.turned().unwrap(), table7());
    }

    #[test]
    fn what_is_sent_to_an_output_twice_is_not_turned() {
        let list = [Flow::new(1, 2, 1), Flow::new(2, 2, 1)];
        let frame = Frame::of_entries(sheet(2, 2, &list), vec![1, 2, 0, 0]).unwrap();
        assert_eq!(frame.turned(), Err(Refusal::Entries));
    }

    #[test]
    fn refused_sheets_have_no_frame() {
        let none = [];
        let overload = [Flow::new(1, 1, 5)];
        let outside = [Flow::new(1, 5, 0)];
        for (ports, slots, list, refusal) in [
            (65_535, 65_535, &none[..], Refusal::Ports),
            (4, 65_535, &none, Refusal::Slots),
            (4, 4, &outside, Refusal::FlowPort),
            (4, 4, &overload, Refusal::InputLoad { port: 1, cells: 5 }),
        ] {
            assert_eq!(Frame::build(sheet(ports, slots, list)), Err(refusal));
        }
    }

    #[test]
    fn entries_from_anywhere_are_of_the_list() {
        let list = [Flow::new(1, 1, 1)];
        let of = |entries: &[u16]| Frame::of_entries(sheet(1, 2, &list), entries.to_vec());
        assert!(of(&[0, 1]).is_some());
        assert!(of(&[1, 1]).is_some());
        assert!(of(&[0, 2]).is_none());
        assert!(of(&[1]).is_none());
        assert!(Frame::of_entries(sheet(0, 1, &[]), Vec::new()).is_none());
    }
}
