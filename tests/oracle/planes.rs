//! A plane's numbers on a line, the making of its bytes, and the kind offset.

use crate::analyse::planes::{LevelFrame, PlaneView};
use crate::kinds::Kind;
use crate::lines::{Fault, Numbers, Work};
use crate::random::{GREATEST, LEAST, Random};

pub(crate) const OFFSET: Kind = Kind {
    name: "offset",
    read: read_offset,
    random: random_offset,
    limits: offset_limits,
};

/// More than the greatest length accepted, so that the refusal can be seen, and still little enough to be lent.
pub(crate) const LONGEST: i64 = 1 << 31;

#[derive(Clone, Copy)]
pub(crate) struct Plane {
    pub(crate) base: usize,
    pub(crate) pitch: usize,
    pub(crate) width: i32,
    pub(crate) height: i32,
    pub(crate) length: usize,
}

impl Plane {
    /// One that the Rust has made.
    pub(crate) fn of(view: &PlaneView<'_>) -> Self {
        Self {
            base: view.base(),
            pitch: view.pitch,
            width: view.width,
            height: view.height,
            length: view.data().len(),
        }
    }

    /// Its place alone, without data.
    pub(crate) fn read_place(numbers: &mut Numbers<'_>) -> Result<Self, Fault> {
        Ok(Self {
            base: numbers.take()?,
            pitch: numbers.take()?,
            width: numbers.take()?,
            height: numbers.take()?,
            length: 0,
        })
    }

    pub(crate) fn read(numbers: &mut Numbers<'_>) -> Result<Self, Fault> {
        let mut plane = Self::read_place(numbers)?;
        plane.length = numbers.take_in(0, LONGEST)? as usize;
        Ok(plane)
    }

    pub(crate) fn numbers(&self) -> [i64; 5] {
        let (base, pitch, length) = (self.base as i64, self.pitch as i64, self.length as i64);
        [base, pitch, self.width.into(), self.height.into(), length]
    }

    pub(crate) fn view<'a>(&self, data: &'a [u8], pel: i32) -> PlaneView<'a> {
        PlaneView::new(data, self.base, self.pitch, self.width, self.height, pel)
    }

    /// The shortest data that the port accepts.
    pub(crate) fn least_length(&self) -> usize {
        self.base + (self.height as usize - 1) * self.pitch + self.width as usize
    }

    /// The data that hold every subplane.
    pub(crate) fn full_length(&self, pel: i32) -> usize {
        self.base + (pel * pel) as usize * self.pitch * self.height as usize
    }
}

pub(crate) fn frame<'a>(planes: &[Plane; 3], data: [&'a [u8]; 3], pel: i32) -> LevelFrame<'a> {
    LevelFrame {
        y: planes[0].view(data[0], pel),
        u: planes[1].view(data[1], pel),
        v: planes[2].view(data[2], pel),
    }
}

/// How a plane's bytes are made. The formula keeps to +, x, div and mod, so that any language can write it.
#[derive(Clone, Copy)]
pub(crate) struct Fill {
    pub(crate) seed: u32,
    pub(crate) levels: u32,
}

impl Fill {
    pub(crate) fn read(numbers: &mut Numbers<'_>) -> Result<Self, Fault> {
        Ok(Self {
            seed: numbers.take()?,
            levels: numbers.take_in(1, 256)? as u32,
        })
    }

    fn byte(self, index: u64) -> u8 {
        const WORD: u64 = 1 << 32;
        let h = (index + u64::from(self.seed) * 7919) % WORD * 2_654_435_761 % WORD;
        let g = (h + h / 32_768) % WORD * 2_246_822_519 % WORD;
        (g / 16_777_216 * u64::from(self.levels) / 256) as u8
    }

    /// Where all are 0 they are not touched, so that there may be very many.
    pub(crate) fn bytes(self, length: usize) -> Vec<u8> {
        if self.levels == 1 {
            return vec![0; length];
        }
        (0..length as u64).map(|index| self.byte(index)).collect()
    }
}

fn read_offset(numbers: &mut Numbers<'_>) -> Result<Work, Fault> {
    let plane = Plane::read_place(numbers)?;
    let pel = numbers.take()?;
    let (x, y) = numbers.two()?;
    Ok(Box::new(move || {
        let view = plane.view(&[], pel);
        vec![view.pel1(x, y) as i64, view.subpel(x, y) as i64]
    }))
}

/// A place along a side: inside, just outside, as far as two pairs reach together, or any.
fn place(random: &mut Random, pel: i64, side: i64) -> i64 {
    match random.below(4) {
        0 => random.between(0, pel * side),
        1 => random.pick(&[0, pel * side]) + random.between(-9, 9),
        2 => random.half() + random.half(),
        _ => random.word(),
    }
}

fn random_offset(random: &mut Random) -> Vec<i64> {
    let pel = random.pick(&[1, 2, 4]);
    let side = |random: &mut Random| match random.below(3) {
        0 => random.between(2, 64),
        1 => random.pick(&[2, 3, 1920, 1080, 16_383, 16_384]),
        _ => random.between(2, 16_384),
    };
    let (width, height) = (side(random), side(random));
    let pitch = random.pick_or(&[width, 65_536], width, 65_536);
    let reach = random.pick(&[5000, 1 << 30]);
    let base = random.pick_or(&[0, 1], 0, reach);
    let (x, y) = (place(random, pel, width), place(random, pel, height));
    vec![base, pitch, width, height, pel, x, y]
}

fn offset_limits() -> Vec<Vec<i64>> {
    let mut cases = Vec::new();
    for pel in [1, 2, 4] {
        for base in [0, 5] {
            let row = |y: i64| (-9..=9).map(move |x| vec![base, 8, 8, 4, pel, x, y]);
            cases.extend((-9..=9).flat_map(row));
        }
        let far = [-65_536, -32_768, -1, 0, 65_533, 65_534, LEAST, GREATEST];
        let row = |y: i64| far.map(|x| vec![1 << 30, 65_536, 16_384, 16_384, pel, x, y]);
        cases.extend(far.into_iter().flat_map(row));
    }
    cases
}
