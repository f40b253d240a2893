//! The two masks of a request.

use crate::refusal::{Refusal, BAD_MASK};
use crate::table::PREDICATES;

/// Refuses with 10 a mask bit above 23, or a yes that is not known.
pub fn check_masks(known: u32, yes: u32) -> Result<(), Refusal> {
    let too_high = (known | yes) >> PREDICATES != 0;
    let yes_without_known = yes & !known != 0;
    if too_high || yes_without_known {
        Err(Refusal::of_request(BAD_MASK))
    } else {
        Ok(())
    }
}
