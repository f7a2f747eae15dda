//! The kinds of cases, by name.

use crate::lines::{Fault, Numbers, Work};
use crate::random::Random;
use crate::{
    block, choose, cost, evaluate, finish, level_pass, levels, packing, pass, plan, planes, score,
    serpentine,
};

pub(crate) struct Kind {
    pub(crate) name: &'static str,
    pub(crate) read: fn(&mut Numbers<'_>) -> Result<Work, Fault>,
    pub(crate) random: fn(&mut Random) -> Vec<i64>,
    pub(crate) limits: fn() -> Vec<Vec<i64>>,
}

pub(crate) const KINDS: [Kind; 23] = [
    packing::PAIR,
    packing::UNPAIR,
    packing::RECORD,
    packing::UNRECORD,
    cost::COST,
    score::SCORE,
    score::ROOT,
    serpentine::POSITION,
    serpentine::BLOCK,
    serpentine::ORDER,
    planes::OFFSET,
    block::BLOCK,
    block::ABSENT,
    block::SAMPLE,
    plan::PLAN,
    evaluate::EVALUATE,
    choose::CHOOSE,
    finish::FINISH,
    pass::PASS,
    levels::PLANE_SIZE,
    levels::LEVEL_OFFSET,
    levels::LEVEL,
    level_pass::LEVEL_PASS,
];

pub(crate) fn named(name: &str) -> Option<&'static Kind> {
    KINDS.iter().find(|kind| kind.name == name)
}
