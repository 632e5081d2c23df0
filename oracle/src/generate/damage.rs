//! Recordings with something wrong: a field changed, a bit turned, words missing or added.

use super::draft::{bytes, Draft};
use super::scenes::scene;
use super::Made;
use crate::random::Random;

/// Words that stand at some bound.
pub(crate) const WORDS: [u32; 22] = [
    0,
    1,
    2,
    3,
    4,
    8,
    13,
    14,
    15,
    16,
    255,
    256,
    4_096,
    8_191,
    8_192,
    8_193,
    32_768,
    32_772,
    65_536,
    0x7fff_ffff,
    0x8000_0000,
    u32::MAX,
];

pub(crate) fn damaged(random: &mut Random) -> Made {
    let draft = scene(random);
    damaged_of(draft, random)
}

pub(crate) fn damaged_of(draft: Draft, random: &mut Random) -> Made {
    let (name, bytes) = match random.below(8) {
        0 => ("bit turned", bit(random, draft.bytes())),
        1 => ("cut short", cut(random, draft.bytes())),
        2 => ("word added", added(random, &draft)),
        3 => ("count changed", count(random, &draft)),
        4 => ("segments swapped", swapped(random, draft)),
        _ => ("field changed", field(random, &draft)),
    };
    Made {
        name: name.into(),
        bytes,
    }
}

fn below(random: &mut Random, n: usize) -> usize {
    random.below(u32::try_from(n).expect("few")) as usize
}

fn bit(random: &mut Random, mut bytes: Vec<u8>) -> Vec<u8> {
    let at = below(random, bytes.len());
    bytes[at] ^= 1 << random.below(8);
    bytes
}

fn cut(random: &mut Random, mut bytes: Vec<u8>) -> Vec<u8> {
    bytes.truncate(below(random, bytes.len()));
    bytes
}

fn added(random: &mut Random, draft: &Draft) -> Vec<u8> {
    let mut words = draft.words();
    let at = below(random, words.len() + 1);
    words.insert(at, random.pick(&WORDS));
    bytes(&words)
}

/// A section's count, one up, one down or anything.
fn count(random: &mut Random, draft: &Draft) -> Vec<u8> {
    let mut words = draft.words();
    let at = draft.place(below(random, 7), 0, 0) - 1;
    words[at] = match random.below(3) {
        0 => words[at].wrapping_add(1),
        1 => words[at].wrapping_sub(1),
        _ => random.pick(&WORDS),
    };
    bytes(&words)
}

fn swapped(random: &mut Random, mut draft: Draft) -> Vec<u8> {
    let n = draft.segments.len();
    if n > 1 {
        let at = below(random, n - 1);
        draft.segments.swap(at, at + 1);
    }
    draft.bytes()
}

/// A field of a record set to a word at some bound, or moved by a little.
fn field(random: &mut Random, draft: &Draft) -> Vec<u8> {
    let mut words = draft.words();
    let at = below(random, words.len());
    words[at] = match random.below(4) {
        0 => words[at].wrapping_add(1),
        1 => words[at].wrapping_sub(1),
        2 => words[at].wrapping_add(4),
        _ => random.pick(&WORDS),
    };
    bytes(&words)
}
