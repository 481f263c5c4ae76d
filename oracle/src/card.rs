//! The card, which the original does not have: documents 01 and 02 alone.

use crate::layout::Layout;

#[derive(Clone, Debug, Default)]
pub struct Card {
    /// In micrometres a second.
    pub rate: u32,
    /// What has been cut off up to the start, in units of 1/(2 * tempo) micrometre.
    pub remainder: u16,
    /// Of the next row, in micrometres.
    pub start: u64,
}

impl Card {
    /// Bytes 16 to 31 of a state.
    pub fn lay(&mut self, layout: &mut Layout) {
        layout.number(&mut self.rate);
        layout.short(&mut self.remainder);
        layout.next([0; 2]);
        layout.long(&mut self.start);
    }

    /// 02: 'When a row's enter takes tempo from t to u, all its T cells together, the remainder becomes remainder × u / t,
    /// cut down once, before that row's length.'
    pub fn change_tempo(&mut self, t: u8, u: u8) {
        self.remainder = (u32::from(self.remainder) * u32::from(u) / u32::from(t)) as u16;
    }

    /// 02: 'A row's length is then (speed × 5 × rate + remainder) divided by 2 × tempo,'
    pub fn length(&self, speed: u8, tempo: u8) -> u32 {
        self.units(speed) / unit(tempo)
    }

    /// 'and the new remainder stays.'
    pub fn leave(&mut self, speed: u8, tempo: u8) {
        self.start += u64::from(self.length(speed, tempo));
        self.remainder = (self.units(speed) % unit(tempo)) as u16;
    }

    fn units(&self, speed: u8) -> u32 {
        u32::from(speed) * 5 * self.rate + u32::from(self.remainder)
    }
}

/// So many units are a micrometre.
pub fn unit(tempo: u8) -> u32 {
    2 * u32::from(tempo)
}
