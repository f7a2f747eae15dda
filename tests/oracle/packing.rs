//! The kinds pair, unpair, record and unrecord.

use crate::analyse::field::recalc::{self, inside};
use crate::free_records::pair_word;
use crate::kinds::Kind;
use crate::lines::{Fault, Numbers, Work};
use crate::random::{GREATEST, LEAST, NAMED, Random, to_word};

pub(crate) const PAIR: Kind = Kind {
    name: "pair",
    read: read_pair,
    random: |random| vec![near_half(random), near_half(random)],
    limits: pair_limits,
};

pub(crate) const UNPAIR: Kind = Kind {
    name: "unpair",
    read: read_unpair,
    random: |random| vec![random_pair_word(random)],
    limits: || pair_words().map(|word| vec![word]).collect(),
};

pub(crate) const RECORD: Kind = Kind {
    name: "record",
    read: read_record,
    random: random_record,
    limits: record_limits,
};

pub(crate) const UNRECORD: Kind = Kind {
    name: "unrecord",
    read: read_unrecord,
    random: |random| random_words(random).to_vec(),
    limits: unrecord_limits,
};

const REFUSED: i64 = 6;
const NONE: i64 = recalc::NONE as i64;
const PAIRS: std::ops::Range<usize> = 5..15;
const LAMBDA: usize = 16;
const FLAGS: usize = 17;

/// A record of which every value fits, each one different.
const FITTING: [i64; 18] = [
    11, NONE, 33, 44, 55, 1, 2, 3, 4, 5, 6, -7, 8, -9, 10, 100, 20, 1,
];

fn read_pair(numbers: &mut Numbers<'_>) -> Result<Work, Fault> {
    let (a, b) = numbers.two()?;
    Ok(Box::new(move || match inside::pair(a, b) {
        Some(word) => vec![0, i64::from(word)],
        None => vec![REFUSED],
    }))
}

fn read_unpair(numbers: &mut Numbers<'_>) -> Result<Work, Fault> {
    let word = numbers.take()?;
    Ok(Box::new(move || {
        let (a, b) = inside::unpair(word);
        vec![i64::from(a), i64::from(b)]
    }))
}

fn read_record(numbers: &mut Numbers<'_>) -> Result<Work, Fault> {
    let mut values = [0; 18];
    for value in &mut values {
        *value = numbers.take()?;
    }
    Ok(Box::new(move || match inside::record(&values) {
        Some(words) => [0].into_iter().chain(words.map(i64::from)).collect(),
        None => vec![REFUSED],
    }))
}

fn read_unrecord(numbers: &mut Numbers<'_>) -> Result<Work, Fault> {
    let words: Vec<i32> = numbers.many(recalc::RECORD)?;
    Ok(Box::new(move || {
        inside::unrecord(&words).map(i64::from).to_vec()
    }))
}

fn near_half(random: &mut Random) -> i64 {
    if random.one_in(4) {
        random.word()
    } else {
        random.half()
    }
}

/// The word of a pair, or any word.
fn random_pair_word(random: &mut Random) -> i64 {
    if random.flag() {
        pair_word(random.half(), random.half())
    } else {
        random.word()
    }
}

fn offset(random: &mut Random) -> i64 {
    match random.below(4) {
        0 => NONE,
        1 => random.between(0, 1 << 30),
        _ => random.word(),
    }
}

fn lambda(random: &mut Random) -> i64 {
    match random.below(4) {
        0 | 1 => random.between(-(1 << 28), (1 << 28) - 1),
        2 => random.pick(&[-(1 << 28), 1 << 28]) + random.between(-2, 2),
        _ => random.word(),
    }
}

fn random_record(random: &mut Random) -> Vec<i64> {
    let mut values = [0; 18];
    for value in &mut values[..PAIRS.start] {
        *value = offset(random);
    }
    for value in &mut values[PAIRS] {
        *value = random.half();
    }
    if random.one_in(3) {
        values[PAIRS.start + random.below(PAIRS.len() as u64) as usize] = random.word();
    }
    values[PAIRS.end] = random.word();
    values[LAMBDA] = lambda(random);
    values[FLAGS] = random.between(0, 3);
    values.to_vec()
}

pub(crate) fn random_words(random: &mut Random) -> [i64; recalc::RECORD] {
    let mut words = [0; recalc::RECORD];
    for (at, word) in words.iter_mut().enumerate() {
        *word = match at {
            0..5 => offset(random),
            5..10 => random_pair_word(random),
            _ => random.word(),
        };
    }
    words
}

fn pair_limits() -> Vec<Vec<i64>> {
    let ends = [LEAST, GREATEST];
    let sides: Vec<i64> = (-32770..=-32766)
        .chain(-3..=3)
        .chain(32765..=32769)
        .chain(ends)
        .collect();
    let against = |a: i64| sides.iter().map(move |&b| vec![a, b]);
    sides.iter().flat_map(|&a| against(a)).collect()
}

fn pair_words() -> impl Iterator<Item = i64> {
    let halves = [-32768, -32767, -2, -1, 0, 1, 2, 32766, 32767];
    halves
        .into_iter()
        .flat_map(move |high| halves.map(|low| pair_word(low, high)))
}

fn word_limits() -> impl Iterator<Item = i64> {
    NAMED
        .iter()
        .flat_map(|&value| [-1, 0, 1].map(|step| to_word(value + step)))
}

fn record_limits() -> Vec<Vec<i64>> {
    let with = |changes: &[(usize, i64)]| {
        let mut values = FITTING.to_vec();
        for &(at, value) in changes {
            values[at] = value;
        }
        values
    };
    let mut cases = Vec::new();
    for at in 0..FLAGS {
        cases.extend(word_limits().map(|value| with(&[(at, value)])));
    }
    for flags in 0..=3 {
        cases.extend(word_limits().map(|value| with(&[(LAMBDA, value), (FLAGS, flags)])));
    }
    cases
}

fn unrecord_limits() -> Vec<Vec<i64>> {
    let packed = inside::record(&FITTING.map(|value| value as i32));
    let words = packed.unwrap_or([0; recalc::RECORD]).map(i64::from);
    let mut cases = Vec::new();
    for at in 0..recalc::RECORD {
        for word in word_limits().chain(pair_words()).chain(-9..=9) {
            let mut case = words.to_vec();
            case[at] = word;
            cases.push(case);
        }
    }
    cases
}
