//! How much work a search may do: in steps, not in seconds, so that it ends at the same tree on every machine.

/// Steps that are left: a point taken from a queue is one, and so are eight numbers added.
#[derive(Debug)]
pub struct Budget {
    left: u64,
    spent: u64,
}

impl Budget {
    pub fn of(steps: u64) -> Budget {
        Budget {
            left: steps,
            spent: 0,
        }
    }

    pub fn spend(&mut self, steps: u64) {
        self.spent += steps;
        self.left = self.left.saturating_sub(steps);
    }

    pub fn is_spent(&self) -> bool {
        self.left == 0
    }

    /// How many steps were taken.
    pub fn spent(&self) -> u64 {
        self.spent
    }
}
