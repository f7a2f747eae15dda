//! The cost of two blocks in the port and in the Rust, on the same blocks.

use std::hint::black_box;

use crate::analyse::field::recalc::rust_cost::{Side, rust_cost};
use crate::port::port_cost;
use crate::{clock, name, noise, step};

const PITCH: usize = 144;
const ROWS: usize = 80;
const BLOCKS: usize = 4000;
const ROUNDS: usize = 15;
const SIZES: [(usize, usize); 5] = [(16, 16), (16, 8), (8, 8), (8, 4), (4, 4)];

pub(crate) fn print() {
    let source = noise(1, PITCH * ROWS);
    let reference = noise(2, PITCH * ROWS);
    let places = places();
    println!("times as fast as the Rust's cost, on {BLOCKS} pairs of blocks, best of {ROUNDS} rounds");
    for satd in [false, true] {
        for (width, height) in SIZES {
            let rust = |(a, b): (usize, usize)| {
                let side = |data, offset: usize| Side { data, pitch: PITCH, offset: offset as i32 };
                rust_cost(satd, width, height, &side(&source, a), &side(&reference, b), black_box(i32::MIN))
            };
            let port = |(a, b): (usize, usize)| {
                port_cost(satd, width, height, &source[a..], PITCH, &reference[b..], PITCH)
            };
            for &place in &places {
                assert_eq!(rust(place), port(place), "{width}x{height} satd {satd} at {place:?}");
            }
            let (slow, fast) = (0..ROUNDS)
                .map(|_| (time(&places, rust), time(&places, port)))
                .fold((f64::MAX, f64::MAX), |(r, p), (s, f)| (r.min(s), p.min(f)));
            println!("{} {width:2}x{height:<2} {:6.1}", name(satd), slow / fast);
        }
    }
}

fn time(places: &[(usize, usize)], cost: impl Fn((usize, usize)) -> u32) -> f64 {
    clock::time(|| {
        black_box(places.iter().fold(0u32, |sum, &place| sum.wrapping_add(cost(black_box(place)))));
    })
}

fn places() -> Vec<(usize, usize)> {
    let mut state = 3;
    let mut place = || {
        let y = step(&mut state) as usize % (ROWS - 16);
        let x = step(&mut state) as usize % (PITCH - 16);
        y * PITCH + x
    };
    (0..BLOCKS).map(|_| (place(), place())).collect()
}
