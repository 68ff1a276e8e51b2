//! The plain reader of demand 3: it holds the unit list of an accepted stream, with depths and ranks (document 02, g), and is
//! fed the calls alone.

use crate::reader::Call;
use crate::rules::{is_group, opens, Handed};

pub struct Plain<'a> {
    units: &'a [Handed],
    /// The listed unit that is the state, and whether it is fresh.
    at: usize,
    fresh: bool,
}

/// Number, unit and part (start and length), zeros where there is none. Offsets are 0.
pub type Said = (u64, Handed, (u64, u64));

impl Plain<'_> {
    /// The state after a start.
    pub fn new(units: &[Handed]) -> Plain<'_> {
        Plain { units, at: 0, fresh: true }
    }

    pub fn call(&mut self, call: Call) -> Said {
        let handed = self.units[self.at];
        let unit = handed.unit;
        let none = Handed::default();
        match call {
            Call::First => {
                *self = Plain::new(self.units);
                (0, self.units[0], (0, 0))
            }
            Call::Next => {
                let found = if self.fresh {
                    Some(self.at + 1).filter(|next| *next < self.units.len())
                } else {
                    self.units.iter().position(|next| next.unit.start >= unit.end)
                };
                let Some(next) = found else {
                    return (1, none, (0, 0));
                };
                (self.at, self.fresh) = (next, true);
                (0, self.units[next], (0, 0))
            }
            Call::Skip if self.fresh && opens(unit.id) => {
                self.fresh = false;
                (0, none, (0, 0))
            }
            Call::GetStream if self.fresh && is_group(unit.id) => {
                self.fresh = false;
                (0, none, (unit.start, unit.end - unit.start))
            }
            Call::Skip | Call::GetStream => (11, none, (0, 0)),
            Call::Previous => (0, handed, (0, 0)),
            Call::AbnormalEnd => unreachable!("not a call of the plain reader"),
        }
    }
}
