//! The drawings: each answers the text of an SVG file, made of values that a command has from the
//! library. Texts stand off their ground by 4.5 to 1 or more and marks by 3 to 1 (WCAG AA).

pub mod comparison;
pub mod frame;
pub mod multiframe;
pub mod svg;

/// What a place of a frame is, in the order of the library's numbers.
#[derive(Clone, Copy, Debug, PartialEq, Eq, PartialOrd, Ord)]
pub enum Kind {
    Word,
    RemoteAlarm,
    /// A national digit, or at levels 12 and 14 another service digit.
    Service,
    Control,
    Justification,
    Negative,
    Ordinary,
}

/// A place of a frame: what it is, and whose, 1 to 4, or 0.
#[derive(Clone, Copy, Debug, PartialEq, Eq)]
pub struct Place {
    pub kind: Kind,
    pub tributary: u64,
}

/// A test of contrasts, for the tests of the pictures.
#[cfg(test)]
pub mod contrast {
    /// The contrast of two colours, each as six hexadecimal digits.
    pub fn of(one: &str, other: &str) -> f64 {
        let (one, other) = (luminance(one), luminance(other));
        (one.max(other) + 0.05) / (one.min(other) + 0.05)
    }

    fn luminance(colour: &str) -> f64 {
        let part = |at: usize| {
            let number = u8::from_str_radix(&colour[at..at + 2], 16).unwrap();
            let share = f64::from(number) / 255.0;
            match share <= 0.04045 {
                true => share / 12.92,
                false => ((share + 0.055) / 1.055).powf(2.4),
            }
        };
        0.2126 * part(0) + 0.7152 * part(2) + 0.0722 * part(4)
    }

    #[test]
    fn black_on_white_is_the_most() {
        assert!((of("000000", "ffffff") - 21.0).abs() < 0.001);
    }
}
