//! Every past state, kept whole. A step-back is worked out from the journal's bytes alone; where the host has changed nothing
//! since a step, the step-back that takes it back must come to the very state that was kept before it. If not, the driver
//! ends: its own model of the journal would be wrong.
use std::collections::VecDeque;

/// All that a step can change, but for the journal.
#[derive(PartialEq)]
pub struct Whole {
    pub registers: [u16; 8],
    pub memory: Vec<u8>,
    pub device: Vec<u8>,
}

pub struct Past {
    /// The last one is the newest. No more than the journal has room for: the rest can't be come back to.
    states: VecDeque<Whole>,
    /// Whether the host has changed nothing since the journal was last empty.
    is_unbroken: bool,
}

impl Past {
    /// The journal is empty.
    pub fn none() -> Past {
        Past { states: VecDeque::new(), is_unbroken: true }
    }

    /// The host has changed something, with so many records held: what was kept so far is not what they lead to.
    pub fn broken(held: u16) -> Past {
        Past { states: VecDeque::new(), is_unbroken: held == 0 }
    }

    /// Keeps the state before an accepted step.
    pub fn keep(&mut self, state: Whole, room: u16) {
        self.states.push_back(state);
        if self.states.len() > room as usize {
            self.states.pop_front();
        }
    }

    /// The state before the newest step that was not taken back, if it was kept.
    pub fn last(&mut self) -> Option<Whole> {
        self.states.pop_back()
    }

    /// As many records are held as states are kept; more only if the host has meddled.
    pub fn check(&mut self, held: u16) {
        let kept = self.states.len();
        assert!(kept <= held as usize, "{kept} states can be come back to, and {held} records are held");
        assert!(kept == held as usize || !self.is_unbroken, "{held} records are held of {kept} steps");
        self.is_unbroken |= held == 0;
    }
}
