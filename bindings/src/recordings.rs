//! Replaying a recording.

use crate::functions::prunepocket_replay;
use crate::structs::RecordingAnswered;

/// Runs a recording through a table of its own. Lends `rows`, where each entry's
/// row goes.
#[inline]
pub fn replay(recording: &[u8], rows: &mut [u64]) -> RecordingAnswered {
    // SAFETY: pointers and lengths come from live slices, which share no memory;
    // the pointer of an empty slice is not null.
    unsafe {
        prunepocket_replay(
            recording.as_ptr(),
            recording.len(),
            rows.as_mut_ptr(),
            rows.len(),
        )
    }
}
