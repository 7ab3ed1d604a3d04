//! Alarm indication: stretches of as many digits as a frame has, and their zeros.

use crate::level::Row;

#[derive(Clone, Copy, Debug, PartialEq, Eq)]
pub struct Stretches {
    /// Of the stretch that is being cut.
    pub digits: usize,
    pub zeros: usize,
    /// Whether the stretch before it had few zeros.
    pub few_before: bool,
    pub alarm: bool,
}

impl Stretches {
    /// No digit has come.
    pub fn fresh() -> Stretches {
        Stretches { digits: 0, zeros: 0, few_before: false, alarm: false }
    }

    /// The stretch with a digit more, whatever the mode: with its last digit it is judged.
    pub fn digit(&mut self, row: &Row, digit: u8) {
        self.digits += 1;
        if digit == 0 {
            self.zeros += 1;
        }
        if self.digits == row.frame_digits {
            self.judge(row);
        }
    }

    /// The stretch is whole: two alike in a row decide, and the next begins.
    pub fn judge(&mut self, row: &Row) {
        let few = self.zeros <= row.few_zeros;
        if few == self.few_before {
            self.alarm = few;
        }
        *self = Stretches { digits: 0, zeros: 0, few_before: few, alarm: self.alarm };
    }
}
