//! Files of either edition, to be converted to the other: half of them good, half with something wrong.

use super::damage::WORDS;
use super::draft::{bytes, clipped, layer, solid, Draft};
use super::scenes::scene;
use super::Made;
use crate::editions::Edition;
use crate::random::Random;

/// So many files of an edition: the edges first, then a mixture.
#[must_use]
pub fn files(seed: u32, count: u32, edition: Edition) -> Vec<Made> {
    let mut random = Random::new(seed);
    let mut all = edges(edition);
    all.truncate(count as usize);
    while all.len() < count as usize {
        all.push(another(&mut random, edition));
    }
    all
}

fn made(name: &str, words: &[u32]) -> Made {
    Made {
        name: name.into(),
        bytes: bytes(words),
    }
}

/// By hand: each answer, words of both editions, the longest sections, a file that would be longer than any.
fn edges(edition: Edition) -> Vec<Made> {
    let mut all = Vec::new();
    let mut edge = |name: &str, draft: &Draft| all.push(made(name, &draft.words_in(edition)));
    let mut plain = Draft::new(64, 8);
    let range = plain.segments(&[solid(0, 0, 4), solid(0, 4, 8)]);
    plain.draw(range);
    plain.nodes(&[[0, 1, 0], [0, 0, 1]]);
    plain.layer(clipped(layer((0, 1)), [0, 0, 64, 8], range, 3));
    plain.root = [0, 2];
    edge("plain", &plain);
    edge("nothing drawn", &Draft::new(0, 0));
    edge("2,048 pixels high", &Draft::new(4_096, 2_048));
    let mut far = plain.clone();
    far.viewport = [0, 0, 64, 2_052];
    edge("2,052 pixels high", &far);
    far.viewport = [1, 2, 63, 7];
    edge("an odd viewport", &far);
    let mut around = plain.clone();
    around.layers[0] = layer((0, 2));
    edge("a layer in itself", &around);
    let mut patterns = plain.clone();
    patterns.layers[0][5] = 0xffc0_0001;
    patterns.paints = vec![[1, 0, 5, u32::MAX], [0, 0x7fff_ffff, 1 << 31, 7]];
    edge("shifts and a NaN", &patterns);
    let mut turned = plain.clone();
    turned.segments.swap(0, 1);
    edge("out of order", &turned);
    // Panels: in a draw alone, in a layer alone, in records that nothing names; the last one, and one past it.
    for (name, panels) in [
        ("a draw's panel", ([1], [0])),
        ("a layer's panel", ([0], [1])),
        ("the last panel", ([255], [255])),
        ("a panel past the last", ([256], [0])),
        ("a layer's past the last", ([0], [u32::MAX])),
    ] {
        let mut draft = plain.clone();
        (draft.draw_panels, draft.layer_panels) = (panels.0.to_vec(), panels.1.to_vec());
        edge(name, &draft);
        draft.root = [0, 0];
        edge(&format!("{name}, out of reach"), &draft);
        draft.segments.swap(0, 1);
        edge(&format!("{name}, out of order"), &draft);
    }
    let mut full = plain.clone();
    full.paints = vec![full.paints[0]; 4_096];
    full.draws = vec![full.draws[0]; 4_096];
    full.layers = vec![full.layers[0]; 4_096];
    edge("4,096 draws and layers", &full);
    full.draws.push(full.draws[0]);
    edge("4,097 draws", &full);
    // Words that have the form of both editions: no draw, or four of them.
    let mut both = [0; 41];
    both[..8].copy_from_slice(&[1, 2, 1, 254, 7, 0, 0, 4]);
    (both[24], both[38]) = (2, 1);
    all.push(made("of both editions", &both));
    all.push(made("no words", &[]));
    all.push(made("a head alone", edition.head()));
    all.push(made("a count alone", &[1]));
    all.push(Made {
        name: "past the longest".into(),
        bytes: vec![0; 1_048_580],
    });
    all
}

fn below(random: &mut Random, n: usize) -> usize {
    random.below(u32::try_from(n).expect("few")) as usize
}

fn another(random: &mut Random, edition: Edition) -> Made {
    let mut draft = scene(random);
    if random.chance(30) {
        // Off the multiples of 4: refused in the exact mode alone.
        draft.viewport = draft.viewport.map(|edge| edge + random.below(4));
    }
    if edition == Edition::Two {
        panels(&mut draft, random);
    }
    if random.chance(50) {
        made("good", &draft.words_in(edition))
    } else {
        damaged(draft, random, edition)
    }
}

/// None in half of the files, one in a quarter, else any.
fn panels(draft: &mut Draft, random: &mut Random) {
    let (draws, layers) = (draft.draws.len(), draft.layers.len());
    (draft.draw_panels, draft.layer_panels) = (vec![0; draws], vec![0; layers]);
    let all = draft.draw_panels.iter_mut().chain(&mut draft.layer_panels);
    match random.below(4) {
        0 | 1 => {}
        2 if draws + layers > 0 => {
            let one = below(random, draws + layers);
            if let Some(panel) = all.into_iter().nth(one) {
                *panel = random.from(1, 255);
            }
        }
        _ => all.for_each(|panel| *panel = random.below(256)),
    }
}

/// Something wrong: the head, a count, a word of a record, the length, the order.
fn damaged(mut draft: Draft, random: &mut Random, edition: Edition) -> Made {
    let mut words = draft.words_in(edition);
    match random.below(8) {
        0 => made("head", &head(words, random, edition)),
        1 => {
            let at = draft.place_in(edition, below(random, 7), 0, 0) - 1;
            words[at] = near(words[at], random);
            made("count", &words)
        }
        2 | 3 => {
            // Any record's, so that of the rare ones too.
            let counts = draft.counts();
            let section = loop {
                let section = below(random, 7);
                if counts[section] > 0 {
                    break section;
                }
            };
            let (record, field) = (
                below(random, counts[section]),
                below(random, edition.sizes()[section]),
            );
            let at = draft.place_in(edition, section, record, field);
            words[at] = near(words[at], random);
            made("a record's word", &words)
        }
        4 => length(&words, random),
        5 => {
            let at = below(random, words.len() + 1);
            words.insert(at, random.pick(&WORDS));
            made("a word more", &words)
        }
        _ => {
            let n = draft.segments.len();
            if n > 1 {
                let at = below(random, n - 1);
                draft.segments.swap(at, at + 1);
            }
            made("order", &draft.words_in(edition))
        }
    }
}

/// A word near what it was, or one at some bound.
fn near(word: u32, random: &mut Random) -> u32 {
    match random.below(4) {
        0 => word.wrapping_add(1),
        1 => word.wrapping_sub(1),
        2 => word.wrapping_add(4),
        _ => random.pick(&WORDS),
    }
}

/// The head changed, left out, or there twice; in edition one a head of two.
fn head(mut words: Vec<u32>, random: &mut Random, edition: Edition) -> Vec<u32> {
    let other = vec![random.pick(&[0, 1, 2, 3]), random.pick(&[0, 1, 2, 3, 255])];
    let (from, head) = match (edition, random.below(3)) {
        (Edition::One, _) | (Edition::Two, 0) => (0, other),
        (Edition::Two, 1) => (2, other),
        (Edition::Two, _) => (random.from(1, 2) as usize, Vec::new()),
    };
    words.splice(0..from, head);
    words
}

/// Some bytes or words fewer, or some bytes more.
fn length(words: &[u32], random: &mut Random) -> Made {
    let mut bytes = bytes(words);
    match random.below(3) {
        0 => bytes.truncate(below(random, bytes.len())),
        1 => bytes.truncate(4 * below(random, words.len())),
        _ => bytes.extend(vec![0; random.from(1, 8) as usize]),
    }
    Made {
        name: "length".into(),
        bytes,
    }
}
