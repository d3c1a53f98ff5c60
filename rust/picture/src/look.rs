//! How the cells of each flow look: in the colour of its port of the other side, and apart from the other flows of its pair.

use std::collections::HashMap;

use frame_builder::{Flow, Side};

use crate::palette::{darker, lighter, PALETTE};

#[derive(Clone, Copy, Debug, PartialEq, Eq)]
enum Tone {
    Light,
    Dark,
}

/// The edges of a cell at which a field leaves the port's colour.
#[derive(Clone, Copy, Debug, PartialEq, Eq)]
pub enum Edges {
    Both,
    Upper,
    Lower,
}

/// A lighter or darker field on the port's colour.
#[derive(Clone, Copy, Debug, PartialEq, Eq)]
pub struct Field {
    tone: Tone,
    pub edges: Edges,
}

const fn field(tone: Tone, edges: Edges) -> Option<Field> {
    Some(Field { tone, edges })
}

/// The field of the first flow of a pair, of the second, and so on.
const FIELDS: [Option<Field>; 7] = [
    None,
    field(Tone::Light, Edges::Both),
    field(Tone::Dark, Edges::Both),
    field(Tone::Light, Edges::Upper),
    field(Tone::Dark, Edges::Upper),
    field(Tone::Light, Edges::Lower),
    field(Tone::Dark, Edges::Lower),
];

/// The port whose colour a cell has, 0 for idle, and which look of its pair it has, from 0.
#[derive(Clone, Copy, Debug, PartialEq, Eq, PartialOrd, Ord)]
pub struct Look {
    pub port: usize,
    pub turn: usize,
}

const IDLE: Look = Look { port: 0, turn: 0 };

impl Look {
    pub fn field(self) -> Option<Field> {
        FIELDS[self.turn]
    }

    /// The colour of its field.
    pub fn tone(self, field: Field) -> String {
        let fill = PALETTE[self.port].fill;
        match field.tone {
            Tone::Light => lighter(fill),
            Tone::Dark => darker(fill),
        }
    }

    /// The colour to write on it.
    pub fn ink(self) -> &'static str {
        match self.field().map(|field| field.tone) {
            None => PALETTE[self.port].ink,
            Some(Tone::Light) => "#000",
            Some(Tone::Dark) => "#fff",
        }
    }
}

/// The look of each entry of a frame of this side: idle first, then flow 1, flow 2 and so on. A row has the cells of one port of the
/// frame's side, so that the colour is that of the port of the other side.
pub fn looks_of(list: &[Flow], side: Side) -> Vec<Look> {
    let mut of_pair: HashMap<(u16, u16), usize> = HashMap::new();
    let flows = list.iter().map(|flow| {
        let before = of_pair.entry((flow.input, flow.output)).or_default();
        let turn = *before % FIELDS.len();
        *before += 1;
        let port = match side {
            Side::Input => flow.output.into(),
            Side::Output => flow.input.into(),
        };
        Look { port, turn }
    });
    std::iter::once(IDLE).chain(flows).collect()
}

#[cfg(test)]
mod tests {
    use super::*;
    use crate::palette::tests::{contrast, distance};
    use crate::palette::Colour;
    use crate::request::HELP;

    /// Every look that a cell can have.
    fn looks() -> impl Iterator<Item = Look> {
        let of_port = |port| (0..FIELDS.len()).map(move |turn| Look { port, turn });
        (1..PALETTE.len()).flat_map(of_port)
    }

    #[test]
    fn flows_of_one_pair_take_turns() {
        let list = [(1, 2), (1, 2), (2, 1), (1, 2), (1, 1)];
        let list = list.map(|(input, output)| Flow::new(input, output, 1));
        let looks = |side| {
            let looks = looks_of(&list, side).into_iter();
            looks.map(|look| (look.port, look.turn)).collect::<Vec<_>>()
        };
        let by_input = [(0, 0), (2, 0), (2, 1), (1, 0), (2, 2), (1, 0)];
        assert_eq!(looks(Side::Input), by_input);
        let by_output = [(0, 0), (1, 0), (1, 1), (2, 0), (1, 2), (1, 0)];
        assert_eq!(looks(Side::Output), by_output);
    }

    #[test]
    fn the_eighth_flow_of_a_pair_looks_like_the_first() {
        let looks = looks_of(&[Flow::new(3, 4, 1); 8], Side::Input);
        for one in 1..=7 {
            for other in 1..one {
                assert_ne!(looks[one].field(), looks[other].field());
            }
        }
        assert_eq!(looks[8], looks[1]);
        assert!(HELP.replace('\n', " ").contains(
            "each of the next six has another one. The eighth looks like the first again."
        ));
    }

    #[test]
    fn fields_are_apart_from_their_port_and_from_each_other() {
        for Colour { fill, .. } in &PALETTE[1..] {
            let (light, dark) = (lighter(fill), darker(fill));
            for (one, other) in [(&*light, &*dark), (&light, fill), (&dark, fill)] {
                assert!(distance(one, other) >= 0.05, "{one} and {other}");
            }
        }
    }

    #[test]
    fn numbers_stand_out_from_their_fields() {
        for look in looks() {
            let fill = PALETTE[look.port].fill.to_string();
            let behind = look.field().map_or(fill, |field| look.tone(field));
            let contrast = contrast(look.ink(), &behind);
            assert!(contrast >= 4.5, "{} on {behind}: {contrast}", look.ink());
        }
    }
}
