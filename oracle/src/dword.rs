//! "In both memories a dword is four bytes, lane 0 first, and lane 0 holds bits 7 to 0."

/// "Lane bits are active low: 0 enables."
pub const ALL_LANES: u8 = 0;
pub const NO_LANES: u8 = 15;

/// The bits of a dword that its enabled lanes hold.
pub fn lane_bits(lanes: u8) -> u32 {
    (0..4)
        .filter(|lane| lanes >> lane & 1 == 0)
        .fold(0, |bits, lane| bits | 0xFF << (8 * lane))
}

/// The dword at an offset, "disabled lanes 0".
pub fn read(memory: &[u8], offset: usize, lanes: u8) -> u32 {
    let mut bytes = [0; 4];
    bytes.copy_from_slice(&memory[offset..offset + 4]);
    u32::from_le_bytes(bytes) & lane_bits(lanes)
}

/// "enabled lanes stored"
pub fn write(memory: &mut [u8], offset: usize, lanes: u8, dword: u32) {
    let bits = lane_bits(lanes);
    let kept = read(memory, offset, ALL_LANES) & !bits;
    memory[offset..offset + 4].copy_from_slice(&(kept | dword & bits).to_le_bytes());
}
