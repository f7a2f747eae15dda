//! The evaluation of one frame in the port and in the Rust, from the same planes and records: every block of the grid is bad.

use std::hint::black_box;

use crate::analyse::field::recalc::RecalcPlan;
use crate::analyse::field::recalc::rust_evaluate::{Asked, rust_bests, rust_plan};
use crate::analyse::planes::{LevelFrame, PlaneView};
use crate::port::{Level, NUMBERS, Place, Planes, Request, Search, Settings, Sides, Weights, port_bests, port_order, port_records};
use crate::{clock, name, noise, step};

const WHOLE: (i32, i32) = (1920, 1080);
const QUARTER: (i32, i32) = (960, 540);
const SIZES: [(i32, i32); 3] = [(8, 8), (16, 8), (16, 16)];
/// Each radius with its rounds: a small window's times are short, and need more of them.
const RADII: [(i32, usize); 2] = [(1, 15), (3, 7)];
const PEL: i32 = 2;
const SHIFT: i32 = 1;
const PNEW: i32 = 30;
const BAD_SAD: i32 = 0;
const PREDICTORS: u64 = 17;
const RECORD: usize = 12;
const BAD: i32 = 1;

pub(crate) fn print() {
    let (whole, quarter) = (Frame::new(WHOLE), Frame::new(QUARTER));
    println!("times as fast as the Rust's evaluation of a frame of {}x{}, best of 7 rounds or more;", WHOLE.0, WHOLE.1);
    println!("then how much longer that frame takes than one of {}x{}, in the port and in the Rust", QUARTER.0, QUARTER.1);
    for satd in [false, true] {
        for (radius, rounds) in RADII {
            for block in SIZES {
                let jobs = [&whole, &quarter].map(|frame| Job::new(frame, satd, radius, block));
                jobs.each_ref().map(Job::compare);
                let [[port, rust], [port_quarter, rust_quarter]] = least_times(&jobs, rounds);
                let growth = (port / port_quarter, rust / rust_quarter);
                let (width, height) = block;
                print!("{} radius {radius} {width:2}x{height:<2} {:6.1}", name(satd), rust / port);
                println!("    {:.1} {:.1}", growth.0, growth.1);
            }
        }
    }
}

/// For each job the port's least time and the Rust's, taken in turns.
fn least_times(jobs: &[Job; 2], rounds: usize) -> [[f64; 2]; 2] {
    let mut least = [[f64::MAX; 2]; 2];
    for _ in 0..rounds {
        for (job, [port, rust]) in jobs.iter().zip(&mut least) {
            *port = port.min(clock::time(|| drop(black_box(job.port()))));
            *rust = rust.min(clock::time(|| drop(black_box(job.rust()))));
        }
    }
    least
}

/// The source's planes have one picture each, the reference's one for each place between pixels, behind one another.
struct Frame {
    places: Planes,
    source: [Vec<u8>; 3],
    reference: [Vec<u8>; 3],
}

impl Frame {
    fn new((width, height): (i32, i32)) -> Self {
        let place = |width, height| Place { base: 0, pitch: width + 32, width, height, pel: PEL };
        let luma = place(width, height);
        let chroma = place(width >> SHIFT, height >> SHIFT);
        let bytes = |seed: u64, pictures: i32| {
            [(0, luma), (1, chroma), (2, chroma)]
                .map(|(at, place)| noise(seed + at, (pictures * place.pitch * place.height) as usize))
        };
        Self {
            places: Planes { luma, u: chroma, v: chroma },
            source: bytes(11, 1),
            reference: bytes(21, PEL * PEL),
        }
    }

    fn level<'a>(&self, [y, u, v]: &'a [Vec<u8>; 3]) -> LevelFrame<'a> {
        let view = |data: &'a [u8], place: Place| {
            PlaneView::new(data, place.base, place.pitch as usize, place.width, place.height, place.pel)
        };
        LevelFrame {
            y: view(y, self.places.luma),
            u: view(u, self.places.u),
            v: view(v, self.places.v),
        }
    }
}

struct Job<'a> {
    frame: &'a Frame,
    request: Request,
    plan: RecalcPlan,
}

impl<'a> Job<'a> {
    fn new(frame: &'a Frame, satd: bool, radius: i32, (width, height): (i32, i32)) -> Self {
        let request = Request {
            satd,
            block: Sides { x: width, y: height },
            shift: Sides { x: SHIFT, y: SHIFT },
            search_param: radius,
            pnew: PNEW,
            pel: PEL,
            source: frame.places,
            reference: frame.places,
        };
        let records = records(frame, &request);
        assert!(records.chunks(RECORD).all(|record| record[RECORD - 1] & BAD != 0));
        let asked = Asked {
            satd,
            block: (width as usize, height as usize),
            radius: radius as usize,
            shift: SHIFT as u32,
            pnew: PNEW,
            pel: PEL,
        };
        Self { frame, request, plan: rust_plan(&asked, &records) }
    }

    fn port(&self) -> Vec<i32> {
        port_bests(self.request, &self.plan.records, &self.frame.source, &self.frame.reference)
    }

    fn rust(&self) -> Vec<[i32; 4]> {
        let Frame { source, reference, .. } = self.frame;
        rust_bests(&self.plan, &self.frame.level(source), &self.frame.level(reference))
    }

    /// The Rust's bests have four numbers, which are the port's first.
    fn compare(&self) {
        let (port, rust) = (self.port(), self.rust());
        let four = port.chunks(NUMBERS).flat_map(|best| &best[..4]);
        assert!(four.eq(rust.as_flattened()), "the bests differ");
    }
}

/// A full grid, its blocks side by side, in serpentine order, with small predictors.
fn records(frame: &Frame, request: &Request) -> Vec<i32> {
    let Sides { x, y } = request.block;
    let grid = Sides { x: frame.places.luma.width / x, y: frame.places.luma.height / y };
    let settings = Settings {
        search: Search { exhaustive: true, search_param: request.search_param },
        weights: Weights { lambda: 1000, bad_sad: BAD_SAD },
        level: Level { smallest: false, need_luma: true, pel: PEL },
        block: request.block,
        grid,
        step: request.block,
        shift: request.shift,
        planes: frame.places,
    };
    let mut state = 4;
    let mut small = || (step(&mut state) % PREDICTORS) as i32 - PREDICTORS as i32 / 2;
    let vectors: Vec<i32> = (0..grid.x * grid.y).flat_map(|_| [small(), small(), BAD_SAD + 1]).collect();
    port_records(settings, &port_order(grid), &vectors, &frame.source)
}
