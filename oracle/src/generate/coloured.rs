//! Recordings to composite: small screens of few rows, with much in each row. Opaque fills over whole buckets and others; layers in layers, up to the
//! limit and one past it; clips that cover in part, whose boxes may be empty and whose segments may lie outside them; blends of every kind; masks; filters.

use super::boxes::loosened;
use super::draft::{clipped, filter, layer, Draft, Range, ONE};
use super::scenes::{any_pixmap, blend, bounds, new_list, place, scene, OPACITIES};
use super::Made;
use crate::random::Random;
use crate::viewport::Mode;

/// A layer of the usual trees nests at most so deep.
const DEPTH: u32 = 5;

/// Without end, each with how its viewport is read; the same seed gives the same ones.
pub fn recordings(seed: u32) -> impl Iterator<Item = (Made, Mode)> {
    let mut random = Random::new(seed);
    std::iter::repeat_with(move || another(&mut random))
}

/// One, and how its viewport is read: by the snapping mode where it needs that, and at times where it does not.
fn another(random: &mut Random) -> (Made, Mode) {
    let (name, mut draft) = match random.below(20) {
        0..3 => ("composited scene", any_scene(random)),
        3..6 => ("composited chain", chain(random)),
        _ => ("composited tree", tree(random)),
    };
    let mode = match random.below(4) {
        0 => Mode::Snapping,
        1 => {
            draft.viewport = loosened(draft.viewport, random);
            Mode::Snapping
        }
        _ => Mode::Exact,
    };
    let made = Made {
        name: name.into(),
        bytes: draft.bytes(),
    };
    (made, mode)
}

/// A scene of the kind `scenes` on a screen that is not large.
fn any_scene(random: &mut Random) -> Draft {
    loop {
        let draft = scene(random);
        let [x0, y0, x1, y1] = draft.viewport;
        if (x1 - x0) * (y1 - y0) <= 512 * 16 {
            return draft;
        }
    }
}

/// One to three rows, about as wide as some buckets of a width.
fn viewport(random: &mut Random) -> [u32; 4] {
    let across = random.pick(&[
        3, 15, 16, 16, 17, 20, 31, 32, 32, 33, 40, 48, 63, 64, 64, 65, 80,
    ]);
    let (wide, high) = (4 * across, 4 * random.pick(&[1, 1, 1, 2, 2, 3]));
    let (x, y) = match random.below(5) {
        0 => (4 * random.below(40), 4 * random.below(6)),
        1 => (32_768 - wide, 32_768 - high),
        _ => (0, 0),
    };
    [x, y, x + wide, y + high]
}

fn fresh(random: &mut Random) -> Draft {
    let mut draft = Draft {
        viewport: viewport(random),
        ..Draft::default()
    };
    for _ in 0..random.from(1, 3) {
        let flag = u32::from(random.chance(75));
        let (x, y) = (random.below(9), random.word());
        draft.paints.push([flag, random.below(99), x, y]);
    }
    draft
}

fn tree(random: &mut Random) -> Draft {
    let mut draft = fresh(random);
    let root = run(&mut draft, random, 0);
    draft.rooted(root)
}

/// Layers, each in the one before, with draws before, in and after them.
fn chain(random: &mut Random) -> Draft {
    let mut draft = fresh(random);
    let count = random.pick(&[4, 8, 12, 14, 15, 16, 16, 17]);
    let mut inner = draws(&mut draft, random, 50);
    let mut nodes = draft.nodes(&[[inner.0, inner.1, 0]]);
    for _ in 0..count {
        let words = properties(&mut draft, random, layer(nodes), 25);
        let number = draft.layer(words);
        inner = draws(&mut draft, random, 30);
        let after = draws(&mut draft, random, 30);
        nodes = draft.nodes(&[[inner.0, inner.1, number], [after.0, after.1, 0]]);
    }
    draft.rooted(nodes)
}

/// A run of one to three nodes, after what they hold.
fn run(draft: &mut Draft, random: &mut Random, depth: u32) -> Range {
    let mut nodes = Vec::new();
    for _ in 0..random.from(1, 3) {
        let draws = draws(draft, random, 75);
        let chance = if depth < DEPTH { 75 - 10 * depth } else { 0 };
        let layer = if random.chance(chance) {
            a_layer(draft, random, depth)
        } else {
            0
        };
        nodes.push([draws.0, draws.1, layer]);
    }
    draft.nodes(&nodes)
}

/// One to three new draws in so many of a hundred cases, at times some that are there, else none.
fn draws(draft: &mut Draft, random: &mut Random, percent: u32) -> Range {
    let start = u32::try_from(draft.draws.len()).expect("few draws");
    if start > 0 && random.chance(10) {
        let (a, b) = (random.from(0, start), random.from(0, start));
        return (a.min(b), a.max(b).min(a.min(b) + 3));
    }
    if !random.chance(percent) {
        return (start, start);
    }
    let new = random.pick(&[1, 1, 1, 2, 2, 3]);
    for _ in 0..new {
        let (from, to) = list(draft, random);
        let paint = random.below(u32::try_from(draft.paints.len()).expect("few paints"));
        let (mix, compose) = blend(random, 75);
        let mask = if random.chance(10) {
            any_mask(random)
        } else {
            0
        };
        let thread = random.below(256) * random.below(2);
        draft
            .draws
            .push([thread, from, to, paint, mix, compose, mask]);
    }
    (start, start + new)
}

fn any_mask(random: &mut Random) -> u32 {
    random.from(1, (1 << 31) - 1)
}

/// Segments on and around the screen: at the edges of buckets of some width, at times one from edge to edge in each row, at times none.
fn list(draft: &mut Draft, random: &mut Random) -> Range {
    let [x0, y0, x1, y1] = draft.viewport.map(|edge| edge / 4);
    let width = random.pick(&[16, 32, 64]);
    let list = match random.below(20) {
        0 => Vec::new(),
        1..5 => {
            let first = place(random, x0, x1, width).min(x1 - 1);
            let end = random.pick(&[x1, x1, first + 1, (first + width).min(8_192)]);
            (y0..y1)
                .map(|row| [0, row, first, end.max(first + 1), 0])
                .collect()
        }
        _ => new_list(draft.viewport, width, random),
    };
    draft.segments(&list)
}

/// A layer's number + 1: a new one, or now and then one that is there.
fn a_layer(draft: &mut Draft, random: &mut Random, depth: u32) -> u32 {
    let count = u32::try_from(draft.layers.len()).expect("few layers");
    if count > 0 && random.chance(8) {
        return random.from(1, count);
    }
    let is_filter = random.chance(20);
    let nodes = if is_filter {
        (0, 0)
    } else {
        run(draft, random, depth + 1)
    };
    let mut words = properties(draft, random, layer(nodes), 55);
    if is_filter {
        let pixmap = any_pixmap(random);
        let dest = bounds(random, draft.viewport, 1);
        let source = [0, 1].map(|_| random.pick(&[0, 1, 4, 100, 32_768]));
        words = filter(words, pixmap, dest, source);
    }
    draft.layer(words)
}

/// Half of the blends are the default; a clip in so many of a hundred cases, of which one in five has an empty box.
fn properties(
    draft: &mut Draft,
    random: &mut Random,
    mut words: [u32; 22],
    clips: u32,
) -> [u32; 22] {
    (words[3], words[4]) = blend(random, 50);
    words[5] = if random.chance(50) {
        ONE
    } else {
        random.pick(&OPACITIES)
    };
    words[6] = if random.chance(10) {
        any_mask(random)
    } else {
        0
    };
    if random.chance(clips) {
        let mut area = bounds(random, draft.viewport, 4);
        match random.below(10) {
            0 => area[2] = area[0],
            1 => area[3] = area[1],
            _ => {}
        }
        let list = list(draft, random);
        words = clipped(words, area, list, random.below(256));
    }
    words
}

#[cfg(test)]
mod tests {
    use super::recordings;
    use crate::colours::{Log, Rgba};
    use crate::composited::accounts;
    use crate::generate::Made;
    use crate::plain::{Closing, Met};
    use crate::walk::Player;
    use crate::width::Width;

    /// Of some recordings at each width: how many are accepted, how many differ in a tile, and what was met.
    fn run(colours: &Log, closing: Closing) -> (usize, usize, Met) {
        let (mut accepted, mut differ, mut met) = (0, 0, Met::default());
        let colours = (Rgba, Log { ..*colours });
        for (Made { bytes, .. }, mode) in recordings(1).take(400) {
            for width in Width::ALL {
                let mut player = Player::new(mode, 1).at(width.pixels());
                if let Ok(told) = accounts(&mut player, &bytes, &colours, closing) {
                    accepted += 1;
                    differ += usize::from(told.plain.rows != told.original.rows);
                    assert_eq!(told.plain.paints, told.original.paints);
                    assert_eq!(told.plain.layers, told.original.layers);
                    met.add(told.met);
                }
            }
        }
        (accepted, differ, met)
    }

    #[test]
    fn the_original_composites_plain_draw_order() {
        let (accepted, differ, met) = run(&Log::LAWFUL, Closing::OwnRows);
        assert_eq!(differ, 0);
        assert!(accepted > 1_000, "{accepted}");
        assert!(met.hiding > 1_000 && met.gentle > 1_000 && met.destructive > 1_000);
        assert!(met.outside > 100 && met.deepest == 16);
    }

    /// Without a law, or with layers that close outside their own rows, the two come apart.
    #[test]
    fn what_is_needed() {
        let differ = |log: &Log, closing| run(log, closing).1;
        let lawful = Log::LAWFUL;
        let first = Log {
            forgets: false,
            ..Log::LAWFUL
        };
        let second = Log {
            is_gentle: false,
            ..Log::LAWFUL
        };
        assert!(differ(&first, Closing::OwnRows) > 0);
        assert!(differ(&second, Closing::OwnRows) > 0);
        assert!(differ(&lawful, Closing::AllRows) > 0);
    }
}
