//! The most that a channel's levels may be, from 02's words.

/// 02: 'channel volumes, not the global ones, above 63, or 64 on AdLib channels'.
pub fn most_volume(adlib: bool) -> u8 {
    if adlib { 64 } else { 63 }
}

/// 02: 'and pans above 15'.
pub const MOST_PAN: u8 = 15;
