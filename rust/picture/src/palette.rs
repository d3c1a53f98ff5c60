//! Colours of the ports of a side.

/// A colour to fill with, and one to write on it.
pub struct Colour {
    pub fill: &'static str,
    pub ink: &'static str,
}

const fn light(fill: &'static str) -> Colour {
    Colour { fill, ink: "#000" }
}

const fn dark(fill: &'static str) -> Colour {
    Colour { fill, ink: "#fff" }
}

/// Idle first, then ports 1 to 16.
pub const PALETTE: [Colour; 17] = [
    light("#eeeeee"),
    dark("#d7263d"),
    dark("#2f5fd0"),
    light("#ffe119"),
    light("#3cb44b"),
    light("#f58231"),
    dark("#7b1fa2"),
    light("#42d4f4"),
    dark("#6b0f1a"),
    light("#bfef45"),
    light("#f032e6"),
    dark("#00695c"),
    light("#ffb3ba"),
    dark("#8d5524"),
    dark("#0b1f66"),
    light("#a8a032"),
    light("#c9a7ff"),
];

/// The same hue, almost white.
pub fn lighter(fill: &str) -> String {
    changed(fill, |part| 0.22 * part + 0.78)
}

/// The same hue, almost black.
pub fn darker(fill: &str) -> String {
    changed(fill, |part| 0.3 * part)
}

fn changed(fill: &str, change: impl Fn(f64) -> f64) -> String {
    let [red, green, blue] = parts(fill).map(|part| (255.0 * change(part)).round() as u8);
    format!("#{red:02x}{green:02x}{blue:02x}")
}

/// The red, green and blue of `#rgb` or `#rrggbb`, 0 to 1.
fn parts(colour: &str) -> [f64; 3] {
    let digits = &colour[1..];
    let wide = digits.len() / 3;
    let most = f64::from(16_u32.pow(wide as u32) - 1);
    let part = |place: usize| &digits[place * wide..(place + 1) * wide];
    let value =
        |place| u32::from_str_radix(part(place), 16).expect("a colour has hexadecimal digits");
    [0, 1, 2].map(|place| f64::from(value(place)) / most)
}

#[cfg(test)]
pub mod tests {
    use super::*;

    /// The relative luminance of the contrast rules for web pages.
    fn luminance(colour: &str) -> f64 {
        let [red, green, blue] = parts(colour).map(|part| {
            if part <= 0.04045 {
                part / 12.92
            } else {
                ((part + 0.055) / 1.055).powf(2.4)
            }
        });
        0.2126 * red + 0.7152 * green + 0.0722 * blue
    }

    /// How well one colour is read on the other, by those rules.
    pub fn contrast(one: &str, other: &str) -> f64 {
        let (one, other) = (luminance(one), luminance(other));
        (one.max(other) + 0.05) / (one.min(other) + 0.05)
    }

    /// The square of the distance between two colours.
    pub fn distance(one: &str, other: &str) -> f64 {
        let (one, other) = (parts(one), parts(other));
        (0..3).map(|part| (one[part] - other[part]).powi(2)).sum()
    }

    #[test]
    fn numbers_stand_out_from_their_cells() {
        for Colour { fill, ink } in PALETTE {
            let contrast = contrast(fill, ink);
            assert!(contrast >= 4.5, "{ink} on {fill}: {contrast}");
        }
    }

    #[test]
    fn colours_are_apart() {
        let places = (0..PALETTE.len()).flat_map(|one| (0..one).map(move |other| (one, other)));
        for (one, other) in places {
            let apart = distance(PALETTE[one].fill, PALETTE[other].fill);
            assert!(apart >= 0.05, "{one} and {other}");
        }
    }

    #[test]
    fn lighter_and_darker() {
        assert_eq!(lighter("#000"), "#c7c7c7");
        assert_eq!(darker("#ff6400"), "#4d1e00");
    }
}
