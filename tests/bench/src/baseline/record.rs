//! Patterns in use and patterns barred.

/// Most removals that a ward keeps.
const MOST: usize = 64;

pub struct Record {
    pub in_use: Vec<Option<u32>>,
    /// nurse and pattern given up, newest first; none where she was placed
    removals: [Option<(u32, u32)>; MOST],
}

impl Record {
    pub fn fresh(nurses: usize) -> Record {
        Record { in_use: vec![None; nurses], removals: [None; MOST] }
    }

    pub fn exchange(&mut self, nurse: usize, pattern: u32, tabu: usize) {
        let given_up = self.in_use[nurse].replace(pattern);
        if tabu > 0 {
            self.removals.copy_within(0..tabu - 1, 1);
            self.removals[0] = given_up.map(|given_up| (nurse as u32, given_up));
        }
    }

    pub fn bars(&self, nurse: usize, pattern: u32) -> bool {
        self.in_use[nurse] == Some(pattern)
            || self.removals.contains(&Some((nurse as u32, pattern)))
    }
}
