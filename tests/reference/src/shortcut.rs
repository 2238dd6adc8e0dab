//! The shortcuts that lose a keyframe, by the number `S` that names each.

/// The opening goes straight to stage 3, so only the last handshake is made.
/// [`last_handshake_ahead`] is a part of that opening.
pub const ONE_HANDSHAKE: u8 = 1;
/// The hand is 0 from the opening on.
pub const HAND_AT_OPENING: u8 = 2;
/// Creating white while tracing.
pub const CREATE_WHITE: u8 = 3;
/// Graying only the new value at status 0 while tracing.
pub const GRAY_ONLY_NEW: u8 = 4;
/// Ending the scan after a pass that opened a cell.
pub const ONE_PASS: u8 = 5;
/// Counting a busy writer as having answered.
pub const BUSY_ANSWERS: u8 = 6;
/// Graying neither value at status 0 while tracing.
pub const GRAY_NEITHER: u8 = 7;

/// Puts all writers where the first two handshakes would have: before the last one.
pub fn last_handshake_ahead(desk: &mut [u16]) {
    for row in desk.chunks_mut(crate::ROW) {
        row[crate::STATUS] = 2;
    }
}
