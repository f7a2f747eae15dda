//! The levels of a super frame: the kinds plane_size, level_offset and level. Where planes lie is the Rust's answer. It
//! refuses nothing: whether 2, 9 or 3 comes instead is the harness's own reading of request One, a second one beside
//! the port's.

use crate::analyse::planes::{LevelFrame, PlaneView, RawPlane, SuperFrameView, inside, plane_size};
use crate::kinds::Kind;
use crate::lines::{Fault, Numbers, Work};
use crate::plan_cases::{LONGEST_DATA, LONGEST_SIDE, SHIFTS};
use crate::planes::{LONGEST, Plane};
use crate::{level_cases, level_limits};

pub(crate) const PLANE_SIZE: Kind = Kind {
    name: "plane_size",
    read: read_size,
    random: level_cases::plane_size,
    limits: level_limits::plane_sizes,
};

pub(crate) const LEVEL_OFFSET: Kind = Kind {
    name: "level_offset",
    read: read_offset,
    random: level_cases::level_offset,
    limits: level_limits::level_offsets,
};

pub(crate) const LEVEL: Kind = Kind {
    name: "level",
    read: read_level,
    random: |random| level_cases::any(random).numbers(),
    limits: level_limits::levels,
};

pub(crate) const LAST_LEVEL: i32 = 15;
pub(crate) const LONGEST_PITCH: i32 = 65_536;

/// Six raw planes: luma, U and V with the levels packed in them, and then those of the separate source. Where there is
/// no such source the last three are any numbers.
#[derive(Clone, Copy)]
pub(crate) struct RawPlanes {
    pub(crate) pitches: [i32; 6],
    pub(crate) separate: bool,
    pub(crate) lengths: [usize; 6],
}

impl RawPlanes {
    pub(crate) fn read(numbers: &mut Numbers<'_>) -> Result<Self, Fault> {
        let mut raw = Self {
            pitches: [0; 6],
            separate: false,
            lengths: [0; 6],
        };
        let (packed, source) = raw.pitches.split_at_mut(3);
        for pitch in packed {
            *pitch = numbers.take()?;
        }
        raw.separate = numbers.flag()?;
        for pitch in source {
            *pitch = numbers.take()?;
        }
        for length in &mut raw.lengths {
            *length = numbers.take_in(0, LONGEST)? as usize;
        }
        Ok(raw)
    }

    pub(crate) fn numbers(&self) -> Vec<i64> {
        let mut line = self.pitches.map(i64::from).to_vec();
        line.insert(3, self.separate.into());
        line.extend(self.lengths.map(|length| length as i64));
        line
    }
}

/// A super frame, and the level that is asked for: any numbers.
#[derive(Clone, Copy)]
pub(crate) struct LevelCase {
    pub(crate) size: (i32, i32),
    pub(crate) shift: (i32, i32),
    pub(crate) pel: i32,
    pub(crate) level: i32,
    pub(crate) raw: RawPlanes,
}

impl LevelCase {
    /// Its raw planes have no pitches and no bytes yet.
    pub(crate) fn bare(
        size: (i32, i32),
        shift: (u32, u32),
        pel: i32,
        level: i32,
        separate: bool,
    ) -> Self {
        Self {
            size,
            shift: (shift.0 as i32, shift.1 as i32),
            pel,
            level,
            raw: RawPlanes {
                pitches: [0; 6],
                separate,
                lengths: [0; 6],
            },
        }
    }

    pub(crate) fn read(numbers: &mut Numbers<'_>) -> Result<Self, Fault> {
        Ok(Self {
            size: numbers.two()?,
            shift: numbers.two()?,
            pel: numbers.take()?,
            level: numbers.take()?,
            raw: RawPlanes::read(numbers)?,
        })
    }

    pub(crate) fn numbers(&self) -> Vec<i64> {
        let ((width, height), (x, y)) = (self.size, self.shift);
        let head = [width, height, x, y, self.pel, self.level].map(i64::from);
        [&head[..], &self.raw.numbers()].concat()
    }

    /// The raw planes are lent as they are; pel, shifts and pitches are such as the Rust has.
    fn view<'a>(&self, data: [&'a [u8]; 6]) -> SuperFrameView<'a> {
        let raw = |at: usize| RawPlane {
            data: data[at],
            pitch: self.raw.pitches[at] as usize,
        };
        SuperFrameView {
            planes: [0, 1, 2].map(raw),
            source: self.raw.separate.then(|| [3, 4, 5].map(raw)),
            width: self.size.0,
            height: self.size.1,
            pel: self.pel,
            chroma_shift: (self.shift.0 as u32, self.shift.1 as u32),
        }
    }

    /// The level as the Rust cuts it.
    pub(crate) fn level<'a>(&self, data: [&'a [u8]; 6]) -> LevelFrame<'a> {
        self.view(data).level(self.level)
    }

    /// How wide the widest level is that each raw plane holds. Beside a separate source the packed ones begin with
    /// level 1.
    pub(crate) fn widths(&self) -> [i32; 6] {
        let source = self.size.0;
        let packed = if self.raw.separate {
            plane_size(source, 1)
        } else {
            source
        };
        let chroma = [packed, source].map(|width| width >> self.shift.0);
        [packed, chroma[0], chroma[0], source, chroma[1], chroma[1]]
    }

    /// Whether the level is the separate source itself.
    pub(crate) fn from_source(&self) -> bool {
        self.raw.separate && self.level == 0
    }

    /// 2 looks at these, and not at the level.
    fn numbers_hold(&self) -> bool {
        let is_side = |side: i32| (2..=LONGEST_SIDE).contains(&side.into());
        let shifts = SHIFTS.map(|(x, y)| (x as i32, y as i32));
        is_side(self.size.0)
            && is_side(self.size.1)
            && [1, 2, 4].contains(&self.pel)
            && shifts.contains(&self.shift)
            && self.pitches_hold()
    }

    fn pitches_hold(&self) -> bool {
        let lent = if self.raw.separate { 6 } else { 3 };
        let pitches = self.raw.pitches[..lent].iter();
        pitches
            .zip(self.widths())
            .all(|(pitch, width)| (width..=LONGEST_PITCH).contains(pitch))
    }

    /// What the Rust answers, or the number with which the port refuses.
    fn cut<'a>(&self, data: [&'a [u8]; 6]) -> Result<LevelFrame<'a>, i64> {
        if !self.numbers_hold() {
            return Err(2);
        }
        // The Rust halves a side once for every level, so it is not asked for level 2147483647.
        if !(0..=LAST_LEVEL).contains(&self.level) {
            return Err(9);
        }
        let frame = self.level(data);
        let planes = three(&frame).map(|view| Plane::of(&view));
        if planes.iter().any(|at| at.width == 0 || at.height == 0) {
            return Err(9);
        }
        if !planes.iter().all(length_holds) {
            return Err(3);
        }
        Ok(frame)
    }

    /// No byte is read, so one stretch of untouched zeros serves as all six raw planes, however long they are.
    fn zeros(&self) -> Vec<u8> {
        vec![0; self.raw.lengths.into_iter().max().unwrap_or(0)]
    }

    pub(crate) fn asked<T>(&self, answer: impl FnOnce(&LevelFrame<'_>) -> T) -> Result<T, i64> {
        let zeros = self.zeros();
        let frame = self.cut(self.raw.lengths.map(|length| &zeros[..length]))?;
        Ok(answer(&frame))
    }

    /// What the Rust answers, also where the port refuses.
    pub(crate) fn unrefused(&self) -> Vec<i64> {
        let zeros = self.zeros();
        cut_numbers(&self.level(self.raw.lengths.map(|length| &zeros[..length])))
    }

    fn answers(&self) -> Vec<i64> {
        match self.asked(cut_numbers) {
            Ok(numbers) => [&[0], &numbers[..]].concat(),
            Err(number) => vec![number],
        }
    }
}

pub(crate) fn three<'a>(frame: &LevelFrame<'a>) -> [PlaneView<'a>; 3] {
    [frame.y, frame.u, frame.v]
}

fn length_holds(plane: &Plane) -> bool {
    plane.length <= LONGEST_DATA && plane.least_length() <= plane.length
}

/// Base, pitch, width, height and pel of each plane.
pub(crate) fn cut_numbers(frame: &LevelFrame<'_>) -> Vec<i64> {
    let mut numbers = Vec::new();
    for view in three(frame) {
        numbers.extend(&Plane::of(&view).numbers()[..4]);
        numbers.push(view.pel().into());
    }
    numbers
}

fn read_level(numbers: &mut Numbers<'_>) -> Result<Work, Fault> {
    let case = LevelCase::read(numbers)?;
    Ok(Box::new(move || case.answers()))
}

fn read_size(numbers: &mut Numbers<'_>) -> Result<Work, Fault> {
    let size = numbers.take()?;
    let level = numbers.take_in(-3, 40)? as i32;
    Ok(Box::new(move || vec![plane_size(size, level).into()]))
}

/// Only what the port's function asks of its callers. It is asked for luma, and for chroma.
fn read_offset(numbers: &mut Numbers<'_>) -> Result<Work, Fault> {
    let size = (numbers.take()?, numbers.take_in(0, LONGEST_SIDE)? as i32);
    let shift = (numbers.take_in(0, 1)? as u32, numbers.take_in(0, 1)? as u32);
    let pel = numbers.take()?;
    if ![1, 2, 4].contains(&pel) {
        return Err(format!("{pel} is not a pel"));
    }
    let level = numbers.take_in(0, LAST_LEVEL.into())? as i32;
    let pitch = numbers.take_in(0, LONGEST_PITCH.into())? as usize;
    let case = LevelCase::bare(size, shift, pel, level, numbers.flag()?);
    Ok(Box::new(move || {
        let frame = case.view([&[]; 6]);
        let offset = |y_shift| inside::level_offset(&frame, level, pitch, y_shift) as i64;
        vec![offset(0), offset(shift.1)]
    }))
}
