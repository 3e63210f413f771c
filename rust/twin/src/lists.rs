//! Refusal 5: each list looked at by itself.

use crate::label::{Label, List};

/// Whether the list has a label with start ≥ end, or does not ascend strictly by start.
pub fn wrong(list: List) -> bool {
    // The least number at which the next label may start.
    let mut low = 0;
    for label in list.iter().map(Label::read) {
        if label.end <= label.start || label.start < low {
            return true;
        }
        low = label.start + 1;
    }
    false
}
