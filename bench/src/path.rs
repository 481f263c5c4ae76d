//! The path machine alone: `crates/path_alone`.

use oracle::tune::Tune;

mod raw {
    unsafe extern "C" {
        pub fn lomqashe_path_rows(
            orders: *const u8,
            orders_len: usize,
            cells: *const u8,
            cells_len: usize,
            speed: u8,
            tempo: u8,
            rate: u32,
            n: u32,
        ) -> u32;
    }
}

/// The rows that a tune has from its start, of 65,535.
pub fn rows(tune: &Tune) -> usize {
    let o = &tune.opening;
    // SAFETY: the function asks nothing but that both slices are alive, and writes nothing.
    let rows = unsafe {
        raw::lomqashe_path_rows(
            tune.orders.as_ptr(),
            tune.orders.len(),
            tune.cells.as_ptr(),
            tune.cells.len(),
            o.speed,
            o.tempo,
            o.rate,
            65_535,
        )
    };
    rows as usize
}
