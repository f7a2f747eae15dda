//! Times the port and the Rust on the same input, and prints ratios: the cost of two blocks, and the evaluation of a frame.

mod analyse {
    pub(crate) mod field;
    pub(crate) mod metric;
    pub(crate) mod params;
    pub(crate) mod planes;
}
mod block_costs;
mod clock;
mod frames;
#[path = "value.rs"]
mod params;
mod port;

fn main() {
    block_costs::print();
    frames::print();
}

fn name(satd: bool) -> &'static str {
    if satd { "SATD" } else { "SAD " }
}

fn noise(seed: u64, length: usize) -> Vec<u8> {
    let mut state = seed;
    (0..length).map(|_| (step(&mut state) >> 56) as u8).collect()
}

fn step(state: &mut u64) -> u64 {
    *state = state.wrapping_add(0x9e37_79b9_7f4a_7c15);
    let z = (*state ^ (*state >> 30)).wrapping_mul(0xbf58_476d_1ce4_e5b9);
    z ^ (z >> 27)
}
