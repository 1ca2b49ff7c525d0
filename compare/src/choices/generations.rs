//! min_generation and generation of a tack, around the floor of its key.

use super::Choices;
use crate::area::Key;

impl Choices<'_> {
    /// min_generation and generation.
    pub(super) fn generations(&mut self, key: &Key) -> (u8, u8) {
        let any = self.random.byte();
        let recorded = self.area.floor(key);
        let floor = recorded.unwrap_or(*self.random.pick(&[0, 1, 3, 3, any, 255]));
        match self.is_expired {
            true => self.generations_of_expired(floor),
            false => self.generations_around(floor),
        }
    }

    /// A generation that is not revoked, so that 23 comes and may raise the floor; by little, or it would soon be 255 for good.
    fn generations_of_expired(&mut self, floor: u8) -> (u8, u8) {
        let (below, above) = (floor.saturating_sub(1), floor.saturating_add(1));
        let further = floor.saturating_add(3);
        let min_generation = *self.random.pick(&[below, floor, above, above, further]);
        let least = min_generation.max(floor);
        (min_generation, *self.random.pick(&[least, least, 255]))
    }

    /// The floor seldom rises, for the same reason.
    fn generations_around(&mut self, floor: u8) -> (u8, u8) {
        let any = self.random.byte();
        let (below, above) = (floor.saturating_sub(1), floor.saturating_add(1));
        if self.is_wrong() {
            return *self
                .random
                .pick(&[(above, floor), (255, 0), (any, any / 2)]);
        }
        if self.is_wrong() || self.random.one_in(self.mix.one_revoked_in) {
            return *self
                .random
                .pick(&[(below, below), (0, below), (0, 0), (below / 2, below)]);
        }
        let within = self.random.byte().min(floor);
        // Mostly below a floor that 23 has raised, or a verdict would soon have raised it as far.
        let passing = [
            (floor, floor),
            (within, floor),
            (within, above),
            (within, 255),
            (0, 255),
        ];
        match self.random.below(30) {
            0 => (above, above),
            // Such a call is hardly ever one that may raise the floor.
            1..=10 if self.one_wrong_in < 10 => (above, above),
            1 if self.random.one_in(8) => (255, 255),
            _ => *self.random.pick(&passing),
        }
    }
}
