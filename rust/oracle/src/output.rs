//! What a call writes.

use crate::refusal::{Refusal, OUTPUT_TOO_SHORT};

/// Writes `bytes` to the front of `out`, or refuses with 11 if that is shorter.
pub fn write(bytes: &[u8], out: &mut [u8]) -> Result<usize, Refusal> {
    let front = out.get_mut(..bytes.len()).ok_or(Refusal::of_request(OUTPUT_TOO_SHORT))?;
    front.copy_from_slice(bytes);
    Ok(bytes.len())
}
