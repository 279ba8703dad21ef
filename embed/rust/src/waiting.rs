/// What waits for a client: each field is true if and only if the step would give something now.
#[derive(Clone, Copy, Debug, Default, PartialEq, Eq)]
pub struct Waiting {
    /// `next-call` would give a request.
    pub request: bool,
    /// `take-notes` would give a notification.
    pub notes: bool,
    /// `collect` would give the answer to the request in the slot.
    pub answer: bool,
    /// The submission whose receipt is in the slot is decided: `settle` would give its outcome, and decide nothing.
    pub decided: bool,
    /// The batch of `take` would go beyond the one before: the domain of the listener in the slot has commits, which may have no change at its path.
    pub changes: bool,
}

impl Waiting {
    pub(crate) fn of(bits: u32) -> Waiting {
        Waiting {
            request: bits & 1 != 0,
            notes: bits & 2 != 0,
            answer: bits & 4 != 0,
            decided: bits & 8 != 0,
            changes: bits & 16 != 0,
        }
    }

    /// Whether anything waits.
    pub fn any(self) -> bool {
        self != Waiting::default()
    }
}
